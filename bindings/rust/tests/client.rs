use kaltewi::{Client, Error};

fn told(client: &mut Client, seat: u64) -> Result<Vec<String>, Error> {
    client.seat(seat).items().collect()
}

#[test]
fn writes_are_settled() -> Result<(), Error> {
    let mut client = Client::open(&[8, 8])?;
    client.connected()?;
    assert_eq!(client.seat(1).set("/a", "1")?, 1);
    assert_eq!(client.seat(2).update(r#"{"/b":2,"/c":null}"#)?, 2);
    assert_eq!(client.seat(1).remove("/d")?, 3);
    assert_eq!(client.outgoing().count(), 4);
    assert!(client.receive(r#"{"id":1,"k":"ok"}"#)?);
    assert!(client.receive(r#"{"id":2,"k":"no","why":"denied"}"#)?);
    assert_eq!(told(&mut client, 1)?, [r#"{"id":1,"k":"wrote"}"#, r#"{"id":3,"k":"wrote"}"#, r#"{"id":1,"k":"ok"}"#]);
    assert_eq!(told(&mut client, 2)?, [r#"{"id":2,"k":"wrote"}"#, r#"{"id":2,"k":"no","why":"denied"}"#]);
    Ok(())
}

#[test]
fn the_end_of_the_connection_is_prepared() -> Result<(), Error> {
    let mut client = Client::open(&[8])?;
    client.connected()?;
    assert_eq!(client.seat(1).on_disconnect("/here", "null")?, 1);
    assert_eq!(client.seat(1).on_disconnect_update(r#"{"/a/b":1}"#)?, 2);
    assert_eq!(client.seat(1).cancel_disconnect("/here")?, 3);
    let sent: Vec<String> = client.outgoing().collect::<Result<_, _>>()?;
    assert_eq!(sent[3], r#"{"id":3,"k":"od-cancel","path":"/here"}"#);
    client.disconnected()
}

#[test]
fn a_long_text_is_whole() -> Result<(), Error> {
    let mut client = Client::open(&[8])?;
    client.connected()?;
    let text = "x".repeat(5_000);
    client.seat(1).set("/a", &format!("\"{text}\""))?;
    let sent: Vec<String> = client.outgoing().collect::<Result<_, _>>()?;
    assert_eq!(sent[1..], [format!(r#"{{"id":1,"k":"put","path":"/a","value":"{text}"}}"#)]);
    Ok(())
}

#[test]
fn what_is_wrong_is_said() -> Result<(), Error> {
    let mut client = Client::open(&[1])?;
    assert_eq!(Client::open(&[1; 65]).err(), Some(Error::TooManySeats));
    assert_eq!(client.seat(2).set("/a", "1"), Err(Error::WrongSeat));
    assert_eq!(client.seat(1).update("[]"), Err(Error::BadText));
    assert_eq!(client.receive(b"\xff"), Err(Error::BadText));
    assert_eq!(client.receive("{}").unwrap_err().to_string(), "wire 2 UnknownKind");
    assert_eq!(client.seat(1).set("/a", "{").unwrap_err().to_string(), "tree 7 NotJson");
    assert_eq!(told(&mut client, 3), Err(Error::WrongSeat));
    Ok(())
}

#[test]
fn a_full_ring_refuses_nothing() -> Result<(), Error> {
    let mut client = Client::open(&[1, 1])?;
    for number in 1..=200 {
        assert_eq!(client.seat(1).set("/a", &number.to_string())?, number);
    }
    let first = client.seat(1).items().next();
    assert_eq!(first, Some(Ok(r#"{"id":1,"k":"wrote"}"#.to_string())));
    let listener = client.seat(2).listen("/a", None)?;
    client.seat(2).unlisten(listener)?;
    let others: Vec<String> = (2..=200).map(|number| format!(r#"{{"id":{number},"k":"wrote"}}"#)).collect();
    assert_eq!(told(&mut client, 1)?, others);
    let batch = r#"{"changes":[{"k":"value","value":200}],"k":"batch","listener":1}"#;
    assert_eq!(told(&mut client, 2)?, [r#"{"k":"listened","listener":1}"#, batch, r#"{"k":"unlistened","listener":1}"#]);
    Ok(())
}

#[test]
fn a_stale_message_is_told_apart() -> Result<(), Error> {
    let mut client = Client::open(&[8])?;
    client.connected()?;
    assert!(!client.receive(r#"{"id":7,"k":"ok"}"#)?);
    Ok(())
}
