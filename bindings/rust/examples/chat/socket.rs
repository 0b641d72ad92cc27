//! The client's side of a WebSocket (RFC 6455), as far as a chat on this machine needs it.

use std::collections::hash_map::RandomState;
use std::hash::{BuildHasher, Hasher};
use std::io::{self, BufRead, BufReader, Read, Write};
use std::net::TcpStream;

const TEXT: u8 = 1;
const CLOSE: u8 = 8;
const PING: u8 = 9;
const PONG: u8 = 10;

/// A connection that stands.
pub struct Socket {
    reader: BufReader<TcpStream>,
    writer: TcpStream,
}

fn broken(why: &str) -> io::Error {
    io::Error::new(io::ErrorKind::InvalidData, why)
}

/// Four bytes that a server can't foresee.
fn mask() -> [u8; 4] {
    (RandomState::new().build_hasher().finish() as u32).to_le_bytes()
}

impl Socket {
    /// Connects to a port of this machine. That the server speaks WebSocket is seen by its status alone.
    pub fn connect(port: u16) -> io::Result<Socket> {
        let mut writer = TcpStream::connect(("127.0.0.1", port))?;
        write!(
            writer,
            "GET / HTTP/1.1\r\nHost: 127.0.0.1:{port}\r\nUpgrade: websocket\r\nConnection: Upgrade\r\n\
             Sec-WebSocket-Key: dGhlIHNhbXBsZSBub25jZQ==\r\nSec-WebSocket-Version: 13\r\n\r\n"
        )?;
        let mut reader = BufReader::new(writer.try_clone()?);
        let mut line = String::new();
        reader.read_line(&mut line)?;
        if !line.starts_with("HTTP/1.1 101") {
            return Err(broken("the server speaks no WebSocket"));
        }
        while line != "\r\n" && !line.is_empty() {
            line.clear();
            reader.read_line(&mut line)?;
        }
        Ok(Socket { reader, writer })
    }

    fn send_frame(&mut self, kind: u8, bytes: &[u8]) -> io::Result<()> {
        let mut frame = vec![0x80 | kind];
        match bytes.len() {
            len @ 0..=125 => frame.push(0x80 | len as u8),
            len @ 126..=65_535 => {
                frame.push(0x80 | 126);
                frame.extend((len as u16).to_be_bytes());
            }
            len => {
                frame.push(0x80 | 127);
                frame.extend((len as u64).to_be_bytes());
            }
        }
        let mask = mask();
        frame.extend(mask);
        frame.extend(bytes.iter().zip(mask.iter().cycle()).map(|(byte, key)| byte ^ key));
        self.writer.write_all(&frame)
    }

    /// Sends a text.
    pub fn send(&mut self, text: &str) -> io::Result<()> {
        self.send_frame(TEXT, text.as_bytes())
    }

    /// Reads a frame: whether it is the last of its message, its kind, and what it carries.
    fn read_frame(&mut self) -> io::Result<(bool, u8, Vec<u8>)> {
        let mut head = [0; 2];
        self.reader.read_exact(&mut head)?;
        let len = match head[1] & 0x7f {
            126 => {
                let mut len = [0; 2];
                self.reader.read_exact(&mut len)?;
                u64::from(u16::from_be_bytes(len))
            }
            127 => {
                let mut len = [0; 8];
                self.reader.read_exact(&mut len)?;
                u64::from_be_bytes(len)
            }
            len => u64::from(len),
        };
        let mut bytes = Vec::new();
        (&mut self.reader).take(len).read_to_end(&mut bytes)?;
        if bytes.len() as u64 != len {
            return Err(broken("the connection has ended within a message"));
        }
        Ok((head[0] & 0x80 != 0, head[0] & 0x0f, bytes))
    }

    /// Waits for a text.
    pub fn read(&mut self) -> io::Result<String> {
        let mut text = Vec::new();
        loop {
            match self.read_frame()? {
                (_, CLOSE, _) => return Err(broken("the server closed the connection")),
                (_, PING, bytes) => self.send_frame(PONG, &bytes)?,
                (_, PONG, _) => {}
                (is_last, _, bytes) => {
                    text.extend(bytes);
                    if is_last {
                        return String::from_utf8(text).map_err(|_| broken("a text is no UTF-8"));
                    }
                }
            }
        }
    }
}

impl Drop for Socket {
    fn drop(&mut self) {
        let _ = self.send_frame(CLOSE, &1000u16.to_be_bytes());
    }
}
