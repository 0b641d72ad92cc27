//! A chat of two clients: `chat PORT`, beside a new `./kaltewi emulate PORT`. Each has a thread and a connection of its own. Ann says a line, bob
//! answers once he hears it, and each goes once it has heard both.

mod socket;

use kaltewi::Client;
use socket::Socket;
use std::error::Error;
use std::thread;
use std::time::{SystemTime, UNIX_EPOCH};

type Answer<T> = Result<T, Box<dyn Error + Send + Sync>>;

/// Who says a line, and hears all of them.
struct Chatter {
    name: &'static str,
    client: Client,
    socket: Socket,
    heard: usize,
    unsettled: usize,
}

impl Chatter {
    /// One who listens to the chat, over a connection of its own.
    fn new(name: &'static str, port: u16) -> Answer<Chatter> {
        let socket = Socket::connect(port)?;
        let mut client = Client::open(&[64])?;
        client.connected()?;
        client.seat(1).listen("/chat", None)?;
        Ok(Chatter { name, client, socket, heard: 0, unsettled: 0 })
    }

    /// Says a line, under a new push id.
    fn say(&mut self, line: &str, digit: u8) -> Answer<()> {
        let now_ms = u64::try_from(SystemTime::now().duration_since(UNIX_EPOCH)?.as_millis())?;
        let key = self.client.push_key(now_ms, [digit; 12])?;
        self.client.seat(1).set(&format!("/chat/{key}"), &format!("\"{}: {line}\"", self.name))?;
        Ok(())
    }

    fn send(&mut self) -> Answer<()> {
        for text in self.client.outgoing() {
            self.socket.send(&text?)?;
        }
        Ok(())
    }

    /// Prints what changed, and counts the lines that came and the writes that are not settled.
    fn hear(&mut self) -> Answer<()> {
        for item in self.client.seat(1).items() {
            let item = item?;
            if item.starts_with(r#"{"changes":"#) {
                println!("{} hears: {item}", self.name);
                self.heard += item.matches(r#""k":"added""#).count();
            } else if item.ends_with(r#""k":"wrote"}"#) {
                self.unsettled += 1;
            } else if item.starts_with(r#"{"id":"#) {
                self.unsettled -= 1;
            }
        }
        Ok(())
    }

    /// Takes messages until so many lines were heard, and what was said is settled.
    fn wait(&mut self, lines: usize) -> Answer<()> {
        loop {
            self.send()?;
            self.hear()?;
            if self.heard >= lines && self.unsettled == 0 {
                return Ok(());
            }
            let text = self.socket.read()?;
            self.client.receive(text)?;
        }
    }
}

fn ann(port: u16) -> Answer<()> {
    let mut ann = Chatter::new("ann", port)?;
    ann.say("hi", 1)?;
    ann.wait(2)
}

fn bob(port: u16) -> Answer<()> {
    let mut bob = Chatter::new("bob", port)?;
    bob.wait(1)?;
    bob.say("hello", 2)?;
    bob.wait(2)
}

fn main() -> Answer<()> {
    let port = std::env::args().nth(1).and_then(|it| it.parse().ok()).ok_or("usage: chat PORT")?;
    let ann = thread::spawn(move || ann(port));
    bob(port)?;
    ann.join().map_err(|_| "ann has panicked")?
}
