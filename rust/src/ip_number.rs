//! Protocol numbers by name, with the values of IANA's registry "Assigned Internet Protocol Numbers".
use crate::IpNumber;
use crate::ip_codes::number_name;
use core::fmt;

pub use crate::ip_base::ip_number::*;

/// Defines two constants for each number: one of `IpNumber`, and one of this module.
macro_rules! numbers {
    ($($name:ident = $value:literal, $doc:literal;)+) => {
        impl IpNumber {
            $(#[doc = $doc] pub const $name: IpNumber = IpNumber($value);)+
        }

        $(#[doc = $doc] pub const $name: IpNumber = IpNumber($value);)+

        /// Each name and its number.
        #[cfg(test)]
        const NAMED: &[(&str, u8)] = &[$((stringify!($name), $value)),+];
    };
}

numbers! {
    ICMP = 1, "Internet Control Message Protocol (ICMP).";
    IGMP = 2, "Internet Group Management Protocol (IGMP).";
    GGP = 3, "Gateway-to-Gateway Protocol (GGP).";
    IPV4 = 4, "IPv4 encapsulation.";
    STREAM = 5, "Internet Stream Protocol (ST).";
    TCP = 6, "Transmission Control Protocol (TCP).";
    CBT = 7, "Core Based Trees (CBT).";
    EGP = 8, "Exterior Gateway Protocol (EGP).";
    IGP = 9, "Any private interior gateway (IGP).";
    BBN_RCC_MON = 10, "BBN RCC Monitoring.";
    NVP_II = 11, "Network Voice Protocol (NVP-II).";
    PUP = 12, "PARC Universal Packet (PUP).";
    ARGUS = 13, "ARGUS (deprecated).";
    EMCON = 14, "EMCON.";
    XNET = 15, "Cross Net Debugger (XNET).";
    CHAOS = 16, "Chaos.";
    MUX = 18, "Multiplexing (MUX).";
    DCN_MEAS = 19, "DCN Measurement Subsystems.";
    HMP = 20, "Host Monitoring Protocol (HMP).";
    PRM = 21, "Packet Radio Measurement (PRM).";
    XNS_IDP = 22, "XEROX NS IDP.";
    TRUNK1 = 23, "Trunk-1.";
    TRUNK2 = 24, "Trunk-2.";
    LEAF1 = 25, "Leaf-1.";
    LEAF2 = 26, "Leaf-2.";
    RDP = 27, "Reliable Data Protocol (RDP).";
    IRTP = 28, "Internet Reliable Transaction Protocol (IRTP).";
    ISO_TP4 = 29, "ISO Transport Protocol Class 4.";
    NET_BLT = 30, "Bulk Data Transfer Protocol (NETBLT).";
    MFE_NSP = 31, "MFE Network Services Protocol.";
    MERIT_INP = 32, "MERIT-INP.";
    DCCP = 33, "Datagram Congestion Control Protocol (DCCP).";
    THIRD_PARTY_CONNECT_PROTOCOL = 34, "Third Party Connect Protocol (3PC).";
    IDPR = 35, "Inter-Domain Policy Routing Protocol (IDPR).";
    XTP = 36, "XTP.";
    DDP = 37, "Datagram Delivery Protocol (DDP).";
    IDPR_CMTP = 38, "IDPR Control Message Transport Protocol.";
    TP_PLUS_PLUS = 39, "TP++ Transport Protocol.";
    IL = 40, "IL Transport Protocol.";
    IPV6 = 41, "IPv6 encapsulation.";
    SDRP = 42, "Source Demand Routing Protocol (SDRP).";
    IDRP = 45, "Inter-Domain Routing Protocol (IDRP).";
    RSVP = 46, "Reservation Protocol (RSVP).";
    GRE = 47, "Generic Routing Encapsulation (GRE).";
    DSR = 48, "Dynamic Source Routing Protocol (DSR).";
    BNA = 49, "BNA.";
    ENCAPSULATING_SECURITY_PAYLOAD = 50, "Encapsulating Security Payload (ESP).";
    INLSP = 52, "Integrated Net Layer Security (I-NLSP).";
    SWIPE = 53, "IP with encryption (SWIPE, deprecated).";
    NARP = 54, "NBMA Address Resolution Protocol (NARP).";
    MOBILE = 55, "Minimal IPv4 encapsulation (Min-IPv4), formerly IP Mobility.";
    TLSP = 56, "Transport Layer Security Protocol (TLSP), which isn't TLS.";
    SKIP = 57, "SKIP.";
    IPV6_ICMP = 58, "ICMP for IPv6.";
    ANY_HOST_INTERNAL_PROTOCOL = 61, "Any host internal protocol.";
    CFTP = 62, "CFTP.";
    ANY_LOCAL_NETWORK = 63, "Any local network.";
    SAT_EXPAK = 64, "SATNET and Backroom EXPAK.";
    KRYTOLAN = 65, "`KRYPTOLAN`.";
    RVD = 66, "MIT Remote Virtual Disk Protocol (RVD).";
    IPPC = 67, "IPPC.";
    ANY_DISTRIBUTED_FILE_SYSTEM = 68, "Any distributed file system.";
    SAT_MON = 69, "SATNET Monitoring.";
    VISA = 70, "VISA Protocol.";
    IPCV = 71, "Internet Packet Core Utility (IPCV).";
    CPNX = 72, "Computer Protocol Network Executive (CPNX).";
    CPHB = 73, "Computer Protocol Heart Beat (CPHB).";
    WSN = 74, "Wang Span Network (WSN).";
    PVP = 75, "Packet Video Protocol (PVP).";
    BR_SAT_MON = 76, "Backroom SATNET Monitoring.";
    SUN_ND = 77, "SUN ND Protocol, temporary.";
    WB_MON = 78, "WIDEBAND Monitoring.";
    WB_EXPAK = 79, "WIDEBAND EXPAK.";
    ISO_IP = 80, "ISO Internet Protocol.";
    VMTP = 81, "Versatile Message Transaction Protocol (VMTP).";
    SECURE_VMTP = 82, "Secure VMTP.";
    VINES = 83, "VINES.";
    TTP_OR_IPTM = 84, "Transaction Transport Protocol (TTP), or Internet Protocol Traffic Manager (IPTM).";
    NSFNET_IGP = 85, "NSFNET interior gateway protocol.";
    DGP = 86, "Dissimilar Gateway Protocol (DGP).";
    TCF = 87, "TCF.";
    EIGRP = 88, "Enhanced Interior Gateway Routing Protocol (EIGRP).";
    OSPFIGP = 89, "Open Shortest Path First (OSPF).";
    SPRITE_RPC = 90, "Sprite RPC Protocol.";
    LARP = 91, "Locus Address Resolution Protocol (LARP).";
    MTP = 92, "Multicast Transport Protocol (MTP).";
    AX25 = 93, "AX.25 Frames.";
    IPIP = 94, "IP-within-IP encapsulation protocol.";
    MICP = 95, "MICP, deprecated.";
    SCC_SP = 96, "Semaphore Communications Security Protocol.";
    ETHER_IP = 97, "Ethernet-within-IP encapsulation.";
    ENCAP = 98, "Encapsulation header.";
    ANY_PRIVATE_ENCRYPTION_SCHEME = 99, "Any private encryption scheme.";
    GMTP = 100, "GMTP.";
    IFMP = 101, "IFMP.";
    PNNI = 102, "PNNI over IP.";
    PIM = 103, "Protocol Independent Multicast (PIM).";
    ARIS = 104, "ARIS.";
    SCPS = 105, "SCPS.";
    QNX = 106, "QNX.";
    ACTIVE_NETWORKS = 107, "Active networks.";
    IP_COMP = 108, "IP Payload Compression Protocol.";
    SITRA_NETWORKS_PROTOCOL = 109, "SNP.";
    COMPAQ_PEER = 110, "Compaq Peer Protocol.";
    IPX_IN_IP = 111, "IPX in IP.";
    VRRP = 112, "Virtual Router Redundancy Protocol (VRRP).";
    PGM = 113, "Reliable multicast transport protocol PGM.";
    ANY_ZERO_HOP_PROTOCOL = 114, "Any 0-hop protocol.";
    LAYER2_TUNNELING_PROTOCOL = 115, "Layer Two Tunnelling Protocol (L2TP).";
    DDX = 116, "D-II Data Exchange (DDX).";
    IATP = 117, "Interactive Agent Transfer Protocol (IATP).";
    STP = 118, "Schedule Transfer Protocol (STP).";
    SRP = 119, "SRP, a radio protocol.";
    UTI = 120, "UTI.";
    SIMPLE_MESSAGE_PROTOCOL = 121, "Simple Message Protocol (SMP).";
    SM = 122, "Simple Multicast Protocol (SM, deprecated).";
    PTP = 123, "Performance Transparency Protocol (PTP).";
    ISIS_OVER_IPV4 = 124, "IS-IS over IPv4.";
    FIRE = 125, "FIRE.";
    CRTP = 126, "Combat Radio Transport Protocol (CRTP).";
    CRUDP = 127, "Combat Radio User Datagram (CRUDP).";
    SSCOPMCE = 128, "SSCOPMCE.";
    IPLT = 129, "IPLT.";
    SPS = 130, "Secure Packet Shield (SPS).";
    PIPE = 131, "Private IP Encapsulation within IP (PIPE).";
    SCTP = 132, "Stream Control Transmission Protocol (SCTP).";
    FC = 133, "Fibre Channel (FC).";
    RSVP_E2E_IGNORE = 134, "RSVP-E2E-IGNORE.";
    MOBILITY_HEADER = 135, "The mobility header.";
    UDP_LITE = 136, "UDP-Lite.";
    MPLS_IN_IP = 137, "MPLS in IP.";
    MANET = 138, "MANET protocols.";
    HIP = 139, "The Host Identity Protocol (HIP).";
    SHIM6 = 140, "The Shim6 protocol.";
    WESP = 141, "Wrapped Encapsulating Security Payload (WESP).";
    ROHC = 142, "Robust Header Compression (ROHC).";
    ETHERNET = 143, "Ethernet (RFC 8986).";
    AGGFRAG = 144, "AGGFRAG encapsulation payload for ESP (RFC 9347).";
    NSH = 145, "Network Service Header (NSH).";
    HOMA = 146, "The transport `Homa`.";
    BIT_EMU = 147, "Bit-stream Emulation (BIT-EMU).";
    EXPERIMENTAL_AND_TESTING_0 = 253, "Use for experimentation and testing.";
    EXPERIMENTAL_AND_TESTING_1 = 254, "Use for experimentation and testing.";
}

/// Encapsulating Security Payload (ESP).
pub const ENCAP_SEC: IpNumber = ENCAPSULATING_SECURITY_PAYLOAD;

/// Use for experimentation and testing.
pub const EXP0: IpNumber = EXPERIMENTAL_AND_TESTING_0;

/// Use for experimentation and testing.
pub const EXP1: IpNumber = EXPERIMENTAL_AND_TESTING_1;

/// Formats the number as the keyword that IANA has assigned to it, such as `TCP`, or in decimal if there is none.
impl fmt::Display for IpNumber {
    fn fmt(&self, f: &mut fmt::Formatter<'_>) -> fmt::Result {
        let name = core::ffi::CStr::from_bytes_until_nul(number_name(self.0));
        match name.ok().and_then(|name| name.to_str().ok()) {
            None | Some("") => fmt::Display::fmt(&self.0, f),
            Some(name) => f.pad(name),
        }
    }
}

impl From<IpNumber> for u8 {
    fn from(number: IpNumber) -> u8 {
        number.0
    }
}

#[cfg(test)]
mod tests {
    use super::NAMED;
    use crate::IpNumber;
    use alloc::collections::BTreeMap;
    use alloc::format;
    use alloc::string::String;

    /// Names that differ from the keyword that IANA has assigned, or have none.
    const OTHERWISE: [(&str, &str); 18] = [
        ("STREAM", "ST"),
        ("THIRD_PARTY_CONNECT_PROTOCOL", "3PC"),
        ("TP_PLUS_PLUS", "TP++"),
        ("ENCAPSULATING_SECURITY_PAYLOAD", "ESP"),
        ("MOBILE", "Min-IPv4"),
        ("ANY_HOST_INTERNAL_PROTOCOL", "61"),
        ("ANY_LOCAL_NETWORK", "63"),
        ("KRYTOLAN", "KRYPTOLAN"),
        ("ANY_DISTRIBUTED_FILE_SYSTEM", "68"),
        ("TTP_OR_IPTM", "IPTM"),
        ("ANY_PRIVATE_ENCRYPTION_SCHEME", "99"),
        ("ACTIVE_NETWORKS", "A/N"),
        ("SITRA_NETWORKS_PROTOCOL", "SNP"),
        ("ANY_ZERO_HOP_PROTOCOL", "114"),
        ("LAYER2_TUNNELING_PROTOCOL", "L2TP"),
        ("SIMPLE_MESSAGE_PROTOCOL", "SMP"),
        ("EXPERIMENTAL_AND_TESTING_0", "253"),
        ("EXPERIMENTAL_AND_TESTING_1", "254"),
    ];

    /// Returns the letters and digits of a name.
    fn plain(name: &str) -> String {
        let letters = name.chars().filter(char::is_ascii_alphanumeric);
        letters.map(|letter| letter.to_ascii_lowercase()).collect()
    }

    #[test]
    fn names_are_the_keywords_of_iana() {
        let otherwise = BTreeMap::from(OTHERWISE);
        for (name, number) in NAMED {
            let shown = format!("{}", IpNumber(*number));
            match otherwise.get(name) {
                Some(keyword) => assert_eq!(shown, *keyword, "{name}"),
                None => assert_eq!(plain(&shown), plain(name)),
            }
        }
        let numbers = NAMED.iter().map(|(_, number)| *number);
        let known = [0, 17, 43, 44, 51, 59, 60];
        assert!(numbers.eq((0..=147).chain([253, 254]).filter(|it| !known.contains(it))));
    }

    #[test]
    fn numbers_are_displayed_by_their_keywords() {
        for (number, text) in [(6, "TCP"), (44, "IPv6-Frag"), (61, "61"), (200, "200")] {
            assert_eq!(format!("{:>10}", IpNumber(number)), format!("{text:>10}"));
        }
    }

    /// The file that `getprotobyname` reads has the same numbers, if this system has it.
    #[cfg(feature = "std")]
    #[test]
    fn numbers_are_those_of_the_system() {
        let Ok(page) = std::fs::read_to_string("/etc/protocols") else {
            return;
        };
        let lines = page.lines().filter_map(|line| line.split('#').next());
        let mut count = 0;
        for line in lines {
            let mut fields = line.split_whitespace();
            let (Some(name), Some(number)) = (fields.next(), fields.next()) else {
                continue;
            };
            let known = NAMED.iter().find(|(known, _)| plain(known) == plain(name));
            if let Some((_, known)) = known {
                assert_eq!(number, format!("{known}"), "{name}");
                count += 1;
            }
        }
        assert!(count > 20, "only {count} names are known");
    }
}
