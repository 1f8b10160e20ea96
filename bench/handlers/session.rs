//! A control session over standard input and output, with the commands READ and QUIT. Its buffer is
//! as long as that of click_prog, and it makes one write for each reply.

mod router;

use router::{Call, Refusal, Reply, Router};
use std::io::{self, Read, Write};

fn reply_text(handler: &[u8], reply: &Reply) -> Vec<u8> {
    let mut text = Vec::new();
    match reply {
        Reply::Value(value) => {
            text.extend_from_slice(b"200 Read handler '");
            text.extend_from_slice(handler);
            text.extend_from_slice(b"' OK\r\nDATA ");
            text.extend_from_slice(value.len().to_string().as_bytes());
            text.extend_from_slice(b"\r\n");
            text.extend_from_slice(value);
        }
        Reply::Refused(Refusal::NoElement) => {
            let dot = handler.iter().rposition(|byte| *byte == b'.').unwrap_or(0);
            text.extend_from_slice(b"510 No element named '");
            text.extend_from_slice(&handler[..dot]);
            text.extend_from_slice(b"'\r\n");
        }
        Reply::Refused(_) => {
            text.extend_from_slice(b"511 No handler named '");
            text.extend_from_slice(handler);
            text.extend_from_slice(b"'\r\n");
        }
        _ => {}
    }
    text
}

/// Answers one line, and returns whether the session goes on.
fn answer(router: &mut Router, line: &[u8], output: &mut impl Write) -> io::Result<bool> {
    let is_blank = |byte: &u8| *byte == b' ' || *byte == b'\t';
    let mut words = line.split(is_blank).filter(|word| !word.is_empty());
    let Some(word) = words.next() else {
        return Ok(true);
    };
    if word.eq_ignore_ascii_case(b"READ") {
        let Some(handler) = words.next() else {
            output.write_all(b"500 Syntax error\r\n")?;
            return Ok(true);
        };
        let text = words.next().unwrap_or(b"");
        let call = Call::Read {
            name: handler.to_vec(),
            text: text.to_vec(),
        };
        let reply = router.step(&call);
        output.write_all(&reply_text(handler, &reply))?;
        Ok(true)
    } else if word.eq_ignore_ascii_case(b"QUIT") {
        output.write_all(b"200 Goodbye!\r\n")?;
        Ok(false)
    } else {
        output.write_all(b"501 Unimplemented command\r\n")?;
        Ok(true)
    }
}

fn main() -> io::Result<()> {
    let mut router = Router::open(3);
    let mut input = io::stdin().lock();
    // Standard output of std buffers lines, and a file does not.
    let mut output = std::fs::OpenOptions::new().write(true).open("/dev/stdout")?;
    output.write_all(b"Click::ControlSocket/1.3\r\n")?;
    let mut buffer: Vec<u8> = Vec::new();
    let mut piece = [0; 4096];
    loop {
        let n = input.read(&mut piece)?;
        if n == 0 {
            return Ok(());
        }
        buffer.extend_from_slice(&piece[..n]);
        let mut at = 0;
        while let Some(length) = buffer[at..].iter().position(|byte| *byte == b'\n' || *byte == b'\r') {
            if !answer(&mut router, &buffer[at..at + length], &mut output)? {
                return Ok(());
            }
            at += length + 1;
        }
        buffer.drain(..at);
    }
}
