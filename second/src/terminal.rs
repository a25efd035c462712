//! A pseudo terminal, opened by the C library's own functions.

use std::fs::File;

/// Both ends of a pseudo terminal. What is written to the keyboard is read from the line; what is
/// written to the line is read from the keyboard's end.
pub struct Terminal {
    /// The person's end.
    pub keyboard: File,
    /// The program's end.
    pub line: File,
}

/// Opens a pseudo terminal that gives lines to the program when they are complete, does not echo
/// them, and leaves the program's output as it is.
#[cfg(unix)]
pub fn open_terminal() -> Result<Terminal, String> {
    let terminal = unix::open().map_err(|error| format!("cannot open a terminal: {error}"))?;
    set_up(&terminal.line)?;
    Ok(terminal)
}

#[cfg(not(unix))]
pub fn open_terminal() -> Result<Terminal, String> {
    Err("there are no pseudo terminals here".to_string())
}

#[cfg(unix)]
fn set_up(line: &File) -> Result<(), String> {
    use std::process::Command;
    let complaint = |error: std::io::Error| format!("cannot set the terminal up: {error}");
    let line = line.try_clone().map_err(complaint)?;
    let status = Command::new("stty").args(["-echo", "-opost"]).stdin(line).status().map_err(complaint)?;
    if status.success() {
        Ok(())
    } else {
        Err("`stty` cannot set the terminal up".to_string())
    }
}

#[cfg(unix)]
mod unix {
    use super::Terminal;
    use std::ffi::{c_char, c_int, CStr, OsStr};
    use std::fs::{File, OpenOptions};
    use std::io;
    use std::os::fd::{AsRawFd, FromRawFd};
    use std::os::unix::ffi::OsStrExt;
    use std::os::unix::fs::OpenOptionsExt;
    use std::path::PathBuf;
    use std::sync::Mutex;

    const O_RDWR: c_int = 2;
    /// The terminal does not become that of this process.
    const O_NOCTTY: c_int = if cfg!(target_os = "linux") { 0o400 } else { 0x20000 };

    extern "C" {
        fn posix_openpt(flags: c_int) -> c_int;
        fn grantpt(keyboard: c_int) -> c_int;
        fn unlockpt(keyboard: c_int) -> c_int;
        fn ptsname(keyboard: c_int) -> *mut c_char;
    }

    pub fn open() -> io::Result<Terminal> {
        // SAFETY: the call takes a number alone.
        let number = checked(unsafe { posix_openpt(O_RDWR) })?;
        // SAFETY: the number is an open file that nobody else has.
        let opened = unsafe { File::from_raw_fd(number) };
        // A copy, unlike the file itself, is closed in programs that are started.
        let keyboard = opened.try_clone()?;
        let path = line_path(&keyboard)?;
        let line = OpenOptions::new().read(true).write(true).custom_flags(O_NOCTTY).open(path)?;
        Ok(Terminal { keyboard, line })
    }

    /// The name of the program's end, which may be opened from now on.
    fn line_path(keyboard: &File) -> io::Result<PathBuf> {
        static ONE_AT_A_TIME: Mutex<()> = Mutex::new(());
        let number = keyboard.as_raw_fd();
        // SAFETY: the calls take the number of an open file.
        checked(unsafe { grantpt(number) })?;
        checked(unsafe { unlockpt(number) })?;
        let _alone = ONE_AT_A_TIME.lock();
        // SAFETY: the text stays until the next call of `ptsname`, which waits for the lock.
        let name = unsafe {
            let name = ptsname(number);
            if name.is_null() {
                return Err(io::Error::last_os_error());
            }
            CStr::from_ptr(name)
        };
        Ok(PathBuf::from(OsStr::from_bytes(name.to_bytes())))
    }

    fn checked(result: c_int) -> io::Result<c_int> {
        if result < 0 {
            Err(io::Error::last_os_error())
        } else {
            Ok(result)
        }
    }
}

#[cfg(all(test, unix))]
mod tests {
    use super::*;
    use std::io::{IsTerminal, Read, Write};

    #[test]
    fn both_ends_are_a_terminal_that_passes_lines_as_they_are() {
        let Terminal { mut keyboard, mut line } = open_terminal().expect("a terminal");
        assert!(line.is_terminal());
        let mut read = [0; 20];
        keyboard.write_all(b"0A\n").expect("typed");
        assert_eq!(line.read(&mut read).expect("a line"), 3);
        assert_eq!(&read[..3], b"0A\n");
        line.write_all(b"00\n").expect("written");
        // Neither an echo of the line nor a carriage return.
        assert_eq!(keyboard.read(&mut read).expect("an answer"), 3);
        assert_eq!(&read[..3], b"00\n");
    }

    #[test]
    fn each_terminal_is_a_new_one() {
        let (mut one, mut two) = (open_terminal().expect("one"), open_terminal().expect("two"));
        one.keyboard.write_all(b"1\n").expect("typed");
        two.keyboard.write_all(b"2\n").expect("typed");
        for (line, given) in [(&mut one.line, b"1\n"), (&mut two.line, b"2\n")] {
            let mut read = [0; 2];
            line.read_exact(&mut read).expect("a line");
            assert_eq!(&read, given);
        }
    }
}
