//! The declarations of `include/pagerudder.h`.

/// Zero-filled it is the closed state.
#[repr(C)]
pub struct State {
    pub opaque: [u64; 4654],
}

#[derive(Clone, Copy)]
#[repr(C)]
pub struct Name {
    pub octets: [u8; 64],
    pub len: usize,
}

#[derive(Clone, Copy)]
#[repr(C)]
pub struct Row {
    pub peer: Name,
    pub fqdn: Name,
    pub identity: bool,
    pub group: u8,
    pub required: u32,
}

#[derive(Clone, Copy)]
#[repr(C)]
pub struct Shelf {
    pub rows: [Row; 16],
    pub count: usize,
}

#[repr(C)]
pub struct Reply {
    pub no: u32,
    pub len: usize,
}

#[repr(C)]
pub struct Progress {
    pub no: u32,
    pub len: usize,
    pub at: usize,
    pub place: u64,
}

extern "C" {
    pub fn pr_open(state: *mut State, domain: *const u8, domain_len: usize, restart: u64, lifetime: u64) -> u32;
    pub fn pr_event(
        state: *mut State,
        rows: *const Row,
        row_count: usize,
        body: *const u8,
        body_len: usize,
        out: *mut u8,
        out_len: usize,
    ) -> Reply;
    pub fn pr_serve(
        state: *mut State,
        shelf: Shelf,
        first: u64,
        input: *const u8,
        input_len: usize,
        out: *mut u8,
        out_len: usize,
    ) -> Progress;
    pub fn pr_sha256(message: *const u8, message_len: usize, out: *mut u8, out_len: usize) -> Reply;
    pub fn pr_hmac(
        key: *const u8,
        key_len: usize,
        text: *const u8,
        text_len: usize,
        out: *mut u8,
        out_len: usize,
    ) -> Reply;
    pub fn pr_kdf(
        fc: u8,
        run: *const u8,
        run_len: usize,
        lens: *const usize,
        len_count: usize,
        out: *mut u8,
        out_len: usize,
    ) -> Reply;
}

#[cfg(test)]
mod tests {
    use super::*;
    use std::mem::{align_of, offset_of, size_of};
    use std::process::Command;

    /// What `clients/layout.c` prints.
    fn printed_by_c() -> String {
        let root = concat!(env!("CARGO_MANIFEST_DIR"), "/..");
        let program = std::env::temp_dir().join(format!("pagerudder-layout-{}", std::process::id()));
        let built = Command::new("cc")
            .args(["-std=c11", "-I", &format!("{root}/include"), &format!("{root}/clients/layout.c"), "-o"])
            .arg(&program)
            .status()
            .expect("cc runs");
        assert!(built.success());
        let run = Command::new(&program).output().expect("the program runs");
        std::fs::remove_file(&program).expect("the program is there");
        assert!(run.status.success());
        String::from_utf8(run.stdout).expect("it prints text")
    }

    macro_rules! laid {
        ($name:literal, $type:ty, $($field:ident),*) => {
            [$name.to_string(), $(offset_of!($type, $field).to_string(),)* size_of::<$type>().to_string(), align_of::<$type>().to_string()].join(" ")
        };
    }

    #[test]
    fn structs_lie_as_the_headers() {
        let ours = [
            laid!("pr_reply", Reply, no, len),
            laid!("pr_progress", Progress, no, len, at, place),
            laid!("pr_name", Name, octets, len),
            laid!("pr_row", Row, peer, fqdn, identity, group, required),
            laid!("pr_shelf", Shelf, rows, count),
            laid!("pr_state", State, opaque),
        ];
        let headers = printed_by_c();
        let headers: Vec<&str> = headers.lines().filter(|line| line.starts_with("pr_")).collect();
        assert_eq!(ours.to_vec(), headers);
    }
}
