//! Readers and writers that fail, that are interrupted, or that take a byte at a time; and the order of faults.

use super::programs::slotmap_script::run_script;
use super::words;
use slotmap_proved::Global;
use std::io::{self, ErrorKind, Read, Write};

/// Reads some bytes, and then fails.
struct FailingReader(&'static [u8]);

impl Read for FailingReader {
    fn read(&mut self, buffer: &mut [u8]) -> io::Result<usize> {
        if self.0.is_empty() {
            return Err(ErrorKind::Other.into());
        }
        self.0.read(buffer)
    }
}

const USAGE: &str = "usage: slotrun basic|dense|hop\n";

/// Words, the output and the status.
const FAULTS: [(&[&str], &str, u8); 15] = [
    (&[], USAGE, 2),
    (&[""], USAGE, 2),
    (&["tree"], USAGE, 2),
    (&["Basic"], USAGE, 2),
    (&["Dense"], USAGE, 2),
    (&["Hop"], USAGE, 2),
    (&[" basic "], USAGE, 2),
    (&["basic "], USAGE, 2),
    (&["basically"], USAGE, 2),
    (&["dense\n"], USAGE, 2),
    (&["ho"], USAGE, 2),
    (&["basic", "basic"], USAGE, 2),
    (&["basic", ""], USAGE, 2),
    (&["basic"], "no script\n", 3),
    (&["hop"], "no script\n", 3),
];

/// The usage comes before the input is read, and a failed read before any line is parsed.
#[test]
fn order_of_faults() {
    for (texts, wanted, status) in FAULTS {
        for bytes in [&b""[..], b"len\nx\n"] {
            let mut output = Vec::new();
            let ended = run_script(Global, &words(texts), &mut FailingReader(bytes), &mut output);
            assert_eq!((output.as_slice(), ended), (wanted.as_bytes(), status), "{texts:?}");
        }
    }
}

/// Takes at most so many bytes at a call, and fails at one call, a write or a flush, and at no other.
struct FailingWriter {
    most: usize,
    fails_at: usize,
    calls: usize,
    taken: Vec<u8>,
}

impl FailingWriter {
    fn call(&mut self) -> io::Result<()> {
        self.calls += 1;
        if self.calls == self.fails_at {
            return Err(ErrorKind::Other.into());
        }
        Ok(())
    }
}

impl Write for FailingWriter {
    fn write(&mut self, bytes: &[u8]) -> io::Result<usize> {
        self.call()?;
        self.taken.write(&bytes[..bytes.len().min(self.most)])
    }

    fn flush(&mut self) -> io::Result<()> {
        self.call()
    }
}

/// Lines of each kind, in many stretches, and lists of many slots: 60,849 bytes.
fn long_script() -> Vec<u8> {
    let lines = [
        ("insert 5\n", 400),
        ("slots\n", 1),
        ("keys\n", 4),
        ("load []\n", 600),
        ("get 0\n", 1800),
        ("load [{\"version\":0}]\n", 1800),
    ];
    lines.iter().flat_map(|(line, count)| line.repeat(*count).into_bytes()).collect()
}

/// Runs a script with a writer that fails at one call, and returns the writer and the status.
fn run_failing(kind: &str, mut script: &[u8], most: usize, fails_at: usize) -> (FailingWriter, u8) {
    let mut writer = FailingWriter { most, fails_at, calls: 0, taken: Vec::new() };
    let status = run_script(Global, &words(&[kind]), &mut script, &mut writer);
    (writer, status)
}

/// With a writer that takes so many bytes at a call there are so many calls, so many bytes are written, and this is the status. Then some calls
/// fail, each in a run of its own: no call follows, the status is 3, and a beginning of the text was written.
fn assert_writes(kind: &str, script: &[u8], most: usize, step: usize, wanted: (usize, usize, u8)) {
    let (whole, status) = run_failing(kind, script, most, 0);
    assert_eq!((whole.calls, whole.taken.len(), status), wanted, "{kind}");
    for fails_at in (1..=whole.calls).step_by(step) {
        let (output, status) = run_failing(kind, script, most, fails_at);
        assert_eq!((status, output.calls), (3, fails_at), "{kind}");
        assert!(whole.taken.starts_with(&output.taken), "{kind}: what was written before call {fails_at}");
    }
}

#[test]
fn failing_writers() {
    let table: [(&str, &[u8], usize, (usize, usize, u8)); 8] = [
        ("tree", b"", 100, (2, 31, 2)),
        ("tree", b"", 5, (8, 31, 2)),
        ("basic", b"x\n", 100, (2, 11, 2)),
        ("basic", b"", 100, (1, 0, 0)),
        ("basic", b"len\n", 100, (2, 6, 0)),
        // The replies up to each list, and the list, are written at once.
        ("basic", b"len\nlen\nslots\nlen\n", 100, (4, 47, 0)),
        ("basic", b"len\nlen\nslots\nlen\n", 7, (9, 47, 0)),
        ("basic", b"load []\nload x\n", 100, (3, 22, 0)),
    ];
    for (kind, script, most, wanted) in table {
        assert_writes(kind, script, most, 1, wanted);
    }
    // A long list is written in pieces.
    assert_writes("basic", &long_script(), 1 << 20, 31, (2406, 60849, 0));
}

/// Reads or writes a byte at a time, and each other call is interrupted: neither is a fault.
struct Slow<T> {
    stream: T,
    calls: usize,
}

impl<T> Slow<T> {
    fn call(&mut self) -> io::Result<()> {
        self.calls += 1;
        if self.calls % 2 == 1 {
            return Err(ErrorKind::Interrupted.into());
        }
        Ok(())
    }
}

impl<T: Read> Read for Slow<T> {
    fn read(&mut self, buffer: &mut [u8]) -> io::Result<usize> {
        self.call()?;
        let most = buffer.len().min(1);
        self.stream.read(&mut buffer[..most])
    }
}

impl<T: Write> Write for Slow<T> {
    fn write(&mut self, bytes: &[u8]) -> io::Result<usize> {
        self.call()?;
        self.stream.write(&bytes[..bytes.len().min(1)])
    }

    fn flush(&mut self) -> io::Result<()> {
        self.stream.flush()
    }
}

#[test]
fn a_byte_at_a_time() {
    let mut wanted = Vec::new();
    assert_eq!(run_script(Global, &words(&["basic"]), &mut long_script().as_slice(), &mut wanted), 0);
    let (script, mut output) = (long_script(), Slow { stream: Vec::new(), calls: 0 });
    let mut input = Slow { stream: script.as_slice(), calls: 0 };
    assert_eq!(run_script(Global, &words(&["basic"]), &mut input, &mut output), 0);
    assert_eq!(output.stream.len(), 60849);
    assert!(output.stream == wanted);
}
