//! How much of what was written to a pipe nobody has read yet.

/// The bytes that lie in the pipe; nothing where it cannot be told.
#[cfg(all(target_os = "linux", any(target_arch = "x86_64", target_arch = "aarch64")))]
pub fn unread(pipe: &impl std::os::fd::AsRawFd) -> Option<usize> {
    use std::ffi::{c_int, c_ulong};
    const FIONREAD: c_ulong = 0x541B;
    extern "C" {
        fn ioctl(file: c_int, request: c_ulong, ...) -> c_int;
    }
    let mut count: c_int = 0;
    // SAFETY: the file is open, and the request writes one number, which is there.
    let result = unsafe { ioctl(pipe.as_raw_fd(), FIONREAD, &mut count as *mut c_int) };
    usize::try_from(count).ok().filter(|_| result == 0)
}

#[cfg(not(all(target_os = "linux", any(target_arch = "x86_64", target_arch = "aarch64"))))]
pub fn unread<T>(_pipe: &T) -> Option<usize> {
    None
}

#[cfg(all(test, target_os = "linux", any(target_arch = "x86_64", target_arch = "aarch64")))]
mod tests {
    use super::*;
    use std::io::{Read, Write};

    #[test]
    fn what_lies_in_a_pipe_is_counted() {
        let (mut reader, mut writer) = std::io::pipe().expect("a pipe");
        assert_eq!(unread(&writer), Some(0));
        writer.write_all(b"0A\n").expect("written");
        assert_eq!(unread(&writer), Some(3));
        reader.read_exact(&mut [0; 2]).expect("read");
        assert_eq!(unread(&writer), Some(1));
        reader.read_exact(&mut [0; 1]).expect("read");
        assert_eq!(unread(&writer), Some(0));
    }
}
