//! Filters packets through C, and by libpcap's expressions for the same packets.
#[cfg(feature = "libpcap")]
use self::pcap::Compiled;
use crate::sums::Digest;
#[cfg(feature = "libpcap")]
use std::sync::OnceLock;

#[repr(C)]
#[derive(Clone, Copy, Default)]
struct Test {
    number: u64,
    address_high: u64,
    address_low: u64,
    kind: u8,
    comparison: u8,
    version: u8,
    prefix_len: u8,
    if_met: u8,
    if_not: u8,
}

#[repr(C)]
struct Filter {
    count: usize,
    tests: [Test; 64],
}

/// The filter `header 44`: its only test is of kind `WOLFAREN_TEST_FLAGS`.
static HEADER_44: Filter = Filter {
    count: 1,
    tests: [Test {
        number: 1 << 44,
        address_high: 0,
        address_low: 0,
        kind: 1,
        comparison: 0,
        version: 0,
        prefix_len: 0,
        if_met: 64,
        if_not: 65,
    }; 64],
};

/// What the text of a filter needs, and where.
#[cfg(feature = "libpcap")]
#[repr(C)]
#[derive(Default)]
struct Error {
    offset: usize,
    expected: u8,
}

unsafe extern "C" {
    #[cfg(feature = "libpcap")]
    fn wolfaren_parse_filter(
        text: *const u8,
        len: usize,
        filter: *mut Filter,
        error: *mut Error,
    ) -> bool;

    fn wolfaren_filter_matches(filter: *const Filter, bytes: *const u8, len: usize) -> bool;
}

impl Filter {
    #[cfg(feature = "libpcap")]
    fn parse(text: &str) -> Filter {
        let mut filter = Filter {
            count: 0,
            tests: [Test::default(); 64],
        };
        let mut error = Error::default();
        // SAFETY: the pointers and the length are those of borrowed values.
        let is_parsed = unsafe {
            wolfaren_parse_filter(text.as_ptr(), text.len(), &raw mut filter, &raw mut error)
        };
        assert!(is_parsed, "the filter is parsed");
        filter
    }

    #[inline(always)]
    fn matches(&self, bytes: &[u8]) -> bool {
        // SAFETY: the pointers and the length are those of borrowed values.
        unsafe { wolfaren_filter_matches(self, bytes.as_ptr(), bytes.len()) }
    }
}

/// Filters by `header 44`.
pub struct Header44;

impl Digest for Header44 {
    #[inline(always)]
    fn digest(bytes: &[u8]) -> u64 {
        u64::from(HEADER_44.matches(bytes))
    }
}

#[cfg(feature = "libpcap")]
pub mod pcap {
    use std::ffi::{c_char, c_int, c_void, CStr};
    use std::ptr;

    /// The link layer of packets that start with their IP header.
    const DLT_RAW: c_int = 12;

    #[repr(C)]
    struct Program {
        len: u32,
        instructions: *mut c_void,
    }

    #[repr(C)]
    struct Header {
        time: [i64; 2],
        caplen: u32,
        len: u32,
    }

    unsafe extern "C" {
        fn pcap_open_dead(link_layer: c_int, snap_len: c_int) -> *mut c_void;

        fn pcap_compile(
            handle: *mut c_void,
            program: *mut Program,
            text: *const c_char,
            optimize: c_int,
            netmask: u32,
        ) -> c_int;

        fn pcap_offline_filter(
            program: *const Program,
            header: *const Header,
            packet: *const u8,
        ) -> c_int;
    }

    /// A compiled expression.
    pub struct Compiled(Program);

    // SAFETY: nothing changes the program after it was compiled.
    unsafe impl Send for Compiled {}
    unsafe impl Sync for Compiled {}

    impl Compiled {
        pub fn new(text: &CStr) -> Compiled {
            let mut program = Program {
                len: 0,
                instructions: ptr::null_mut(),
            };
            // SAFETY: the handle and the program are valid, and the text ends with a 0 byte.
            let status = unsafe {
                let handle = pcap_open_dead(DLT_RAW, 65_535);
                pcap_compile(handle, &raw mut program, text.as_ptr(), 1, 0)
            };
            assert_eq!(status, 0, "libpcap compiles the expression");
            Compiled(program)
        }

        #[inline(always)]
        pub fn matches(&self, bytes: &[u8]) -> bool {
            let len = bytes.len() as u32;
            let header = Header {
                time: [0; 2],
                caplen: len,
                len,
            };
            // SAFETY: the program was compiled, and the header has the length of the bytes.
            unsafe { pcap_offline_filter(&raw const self.0, &header, bytes.as_ptr()) != 0 }
        }
    }
}

/// Filters by libpcap's `ip6 protochain 44`.
#[cfg(feature = "libpcap")]
pub struct Protochain44;

#[cfg(feature = "libpcap")]
impl Digest for Protochain44 {
    #[inline(always)]
    fn digest(bytes: &[u8]) -> u64 {
        static PROGRAM: OnceLock<Compiled> = OnceLock::new();
        u64::from(
            PROGRAM
                .get_or_init(|| Compiled::new(c"ip6 protochain 44"))
                .matches(bytes),
        )
    }
}

/// Makes a module for each filter: `Ours` filters by its text, and `Libpcap` by libpcap's expression.
#[cfg(feature = "libpcap")]
macro_rules! filters {
    ($($name:ident: $ours:literal, $theirs:literal;)*) => {
        $(pub mod $name {
            use super::{Compiled, Filter};
            use crate::sums::Digest;
            use std::sync::OnceLock;

            pub struct Ours;

            impl Digest for Ours {
                #[inline(always)]
                fn digest(bytes: &[u8]) -> u64 {
                    static FILTER: OnceLock<Filter> = OnceLock::new();
                    u64::from(FILTER.get_or_init(|| Filter::parse($ours)).matches(bytes))
                }
            }

            pub struct Libpcap;

            impl Digest for Libpcap {
                #[inline(always)]
                fn digest(bytes: &[u8]) -> u64 {
                    static PROGRAM: OnceLock<Compiled> = OnceLock::new();
                    u64::from(PROGRAM.get_or_init(|| Compiled::new($theirs)).matches(bytes))
                }
            }
        })*
    };
}

#[cfg(feature = "libpcap")]
filters! {
    net: "net 2000::/3", c"net 2000::/3";
    hop_limit: "ttl < 65", c"ip6[7] < 65";
    other_net: "src 2001:db8::/32 and tcp and port 443", c"src net 2001:db8::/32 and tcp and port 443";
}
