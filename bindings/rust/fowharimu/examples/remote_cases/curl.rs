//! A client of HTTP by the command `curl`, for whoever has no other one.

use fowharimu::{Answer, Fetch, Get};
use std::error::Error;
use std::io::{BufRead, BufReader, Read};
use std::process::{Child, Command, Stdio};
use std::time::Duration;

/// Runs `curl` for each request.
pub struct Curl {
    /// A file with the certificates of the authorities that are trusted; those of the system where there is none.
    pub authorities: Option<String>,
}

impl Fetch for Curl {
    fn fetch(&self, get: &Get<'_>) -> Result<Answer, Box<dyn Error + Send + Sync>> {
        let mut running = Running(self.command(get).spawn()?);
        let mut octets = BufReader::new(running.0.stdout.take().ok_or("it has no output")?);
        let head = match Head::read(&mut octets) {
            Ok(head) => head,
            Err(error) => return Err(running.end().err().unwrap_or(error)),
        };
        let answer = get.answer(head.status, head.location, octets)?;
        if answer.status == 200 {
            running.end()?;
            // (`curl` looks at the last of several lengths)
            let length = answer.body.len().to_string();
            if head.lengths.iter().any(|it| *it != length) {
                return Err("its length isn't the one that it says".into());
            }
        }
        Ok(answer)
    }
}

impl Curl {
    /// The command, which takes nothing from files or the environment but where the system's authorities are.
    fn command(&self, get: &Get<'_>) -> Command {
        let mut command = Command::new("curl");
        command
            .args(["--disable", "--silent", "--show-error", "--include"])
            .args(["--noproxy", "*", "--proto", "=https,http", "--tlsv1.2"])
            .args(["--header", &format!("Accept: {}", Get::ACCEPT)])
            // (none of 0, which would have no end)
            .args(["--max-time", &seconds(get.timeout())])
            .stdin(Stdio::null())
            .stdout(Stdio::piped())
            .stderr(Stdio::piped());
        if let Some(file) = &self.authorities {
            command.args(["--cacert", file, "--capath", "/dev/null"]);
        }
        command.args(["--", get.url()]);
        command
    }
}

fn seconds(time: Duration) -> String {
    format!("{:.3}", time.max(Duration::from_millis(1)).as_secs_f64())
}

/// A `curl` that is ended where nobody reads it any more.
struct Running(Child);

impl Running {
    /// Waits for its end, and says why it failed, where it did.
    fn end(&mut self) -> Result<(), Box<dyn Error + Send + Sync>> {
        if self.0.wait()?.success() {
            return Ok(());
        }
        let mut said = String::new();
        if let Some(output) = &mut self.0.stderr {
            output.read_to_string(&mut said)?;
        }
        Err(said.into())
    }
}

impl Drop for Running {
    fn drop(&mut self) {
        // (one that has ended already makes an error here)
        let _ = self.0.kill();
        let _ = self.0.wait();
    }
}

/// The headers of an answer.
#[derive(Default)]
struct Head {
    status: u16,
    location: Option<String>,
    lengths: Vec<String>,
}

impl Head {
    /// Reads the headers of the answer behind those that are interim (RFC 9110, section 15.2). `curl` bounds how many octets they have.
    fn read(from: &mut impl BufRead) -> Result<Head, Box<dyn Error + Send + Sync>> {
        loop {
            let head = Head::read_one(from)?;
            if head.status >= 200 {
                return Ok(head);
            }
        }
    }

    fn read_one(from: &mut impl BufRead) -> Result<Head, Box<dyn Error + Send + Sync>> {
        let mut head = Head {
            status: line(from)?
                .split(' ')
                .nth(1)
                .ok_or("it has no status")?
                .parse()?,
            ..Head::default()
        };
        loop {
            let line = line(from)?;
            let (name, value) = match line.split_once(':') {
                Some(parts) => parts,
                None if line.is_empty() => return Ok(head),
                None => continue,
            };
            match name.to_ascii_lowercase().as_str() {
                "location" => head.location = Some(value.trim().to_owned()),
                "content-length" => head.lengths.push(value.trim().to_owned()),
                _ => {}
            }
        }
    }
}

/// A line, without its end. An answer that ends before it is none.
fn line(from: &mut impl BufRead) -> Result<String, Box<dyn Error + Send + Sync>> {
    let mut octets = Vec::new();
    from.read_until(b'\n', &mut octets)?;
    if octets.pop() != Some(b'\n') {
        return Err("it gives no answer".into());
    }
    Ok(String::from_utf8_lossy(&octets).trim_end().to_owned())
}
