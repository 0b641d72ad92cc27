use kaltewi::{Core, Error};

#[test]
fn a_script_prints_what_it_has_to() -> Result<(), Error> {
    let mut core = Core::open()?;
    let script = ["[\"connected\"]", "[\"listen\",1,\"/\",[]]", "[\"data\",1,\"/\",{\"b\":1,\"a\":true}]"];
    let printed: Result<String, Error> = core.lines(script).collect();
    let wanted = "done\ndone 1\ndone\nL1 added \"a\" true after none\nL1 added \"b\" 1 after \"a\"\nL1 value {\"a\":true,\"b\":1}\n";
    assert_eq!(printed?, wanted);
    Ok(())
}

#[test]
fn a_long_text_is_whole() -> Result<(), Error> {
    let mut core = Core::open()?;
    core.line("[\"connected\"]")?;
    core.line("[\"listen\",1,\"/\",[]]")?;
    let text = "x".repeat(5_000);
    let printed = core.line(format!("[\"data\",1,\"/\",\"{text}\"]"))?;
    assert_eq!(printed, format!("done\nL1 value \"{text}\"\n"));
    Ok(())
}

#[test]
fn a_bad_line_ends_the_lines() -> Result<(), Error> {
    let mut core = Core::open()?;
    let printed: Vec<_> = core.lines(["[\"connected\"]", "hello", "[\"connected\"]"]).collect();
    assert_eq!(printed, [Ok("done\n".to_string()), Err(Error::BadLine("bad line 2\n".to_string()))]);
    Ok(())
}
