const FROM_SERVER: [&str; 3] = [
    r#"{"k":"data","path":"/chat","tag":1,"value":{"m1":"hi"}}"#,
    r#"{"k":"data","path":"/chat/m2","tag":1,"value":5}"#,
    r#"{"k":"ok","id":1}"#,
];

fn main() -> Result<(), kaltewi::Error> {
    let mut client = kaltewi::Client::open(&[64])?;
    client.connected()?;
    client.seat(1).listen("/chat", None)?;
    client.seat(1).set("/chat/m2", "5")?;
    for text in client.outgoing() {
        println!("to the server: {}", text?);
    }
    for text in FROM_SERVER {
        client.receive(text)?;
    }
    for item in client.seat(1).items() {
        println!("{}", item?);
    }
    Ok(())
}
