//! Headers and chains written to any writer of the standard library.

use crate::err::{ipv4_exts, ipv6_exts};
use crate::ip_ext_chains::header_ref::HeaderRef;
use crate::ip_ext_chains::places::Place;
use crate::ip_ext_chains::walk::Walk;
use crate::{
    IpAuthHeader, IpNumber, Ipv4Extensions, Ipv6Extensions, Ipv6FragmentHeader, Ipv6RawExtHeader,
};
use std::io::{self, Write};

const IN_ORDER: [Place; 6] = [
    Place::HopByHop,
    Place::Destination,
    Place::Routing,
    Place::Fragment,
    Place::Authentication,
    Place::FinalDestination,
];

impl IpAuthHeader {
    /// Writes the bytes of `to_bytes`. Returns the writer's error.
    pub fn write<W: Write + ?Sized>(&self, writer: &mut W) -> io::Result<()> {
        writer.write_all(&self.first_bytes())?;
        match self.raw_icv() {
            [] => Ok(()),
            icv => writer.write_all(icv),
        }
    }
}

impl Ipv6FragmentHeader {
    /// Writes the bytes of `to_bytes`. Returns the writer's error.
    pub fn write<W: Write + ?Sized>(&self, writer: &mut W) -> io::Result<()> {
        writer.write_all(&self.to_bytes())
    }
}

impl Ipv6RawExtHeader {
    /// Writes the bytes of `to_bytes`. Returns the writer's error.
    pub fn write<W: Write + ?Sized>(&self, writer: &mut W) -> io::Result<()> {
        writer.write_all(&[self.next_header.0, self.hdr_ext_len()])?;
        writer.write_all(self.payload())
    }
}

impl Ipv4Extensions {
    /// Writes the bytes of `append_to`. Returns its errors, for which nothing is written, and the writer's as `Io`.
    pub fn write<W: Write + ?Sized>(
        &self,
        writer: &mut W,
        start_ip_number: IpNumber,
    ) -> Result<(), ipv4_exts::HeaderWriteError> {
        self.next_header(start_ip_number)
            .map_err(ipv4_exts::HeaderWriteError::Content)?;
        match &self.auth {
            Some(header) => header
                .write(writer)
                .map_err(ipv4_exts::HeaderWriteError::Io),
            None => Ok(()),
        }
    }
}

impl Ipv6Extensions {
    /// Writes the bytes of `append_to`. Returns its errors, for which nothing is written, and the writer's as `Io`.
    pub fn write<W: Write + ?Sized>(
        &self,
        writer: &mut W,
        first_header: IpNumber,
    ) -> Result<(), ipv6_exts::HeaderWriteError> {
        self.next_header(first_header)
            .map_err(ipv6_exts::HeaderWriteError::Content)?;
        let mut walk = Walk::new(self, first_header);
        // Headers linked in the order of the places, the usual case, are all reached here.
        for place in IN_ORDER {
            if let Some(header) = walk.next_in(place) {
                write_header(writer, header).map_err(ipv6_exts::HeaderWriteError::Io)?;
            }
        }
        while let Some(header) = walk.next() {
            write_header(writer, header).map_err(ipv6_exts::HeaderWriteError::Io)?;
        }
        Ok(())
    }
}

fn write_header<W: Write + ?Sized>(writer: &mut W, header: HeaderRef<'_>) -> io::Result<()> {
    match header {
        HeaderRef::Raw(header) => header.write(writer),
        HeaderRef::Fragment(header) => header.write(writer),
        HeaderRef::Authentication(header) => header.write(writer),
    }
}
