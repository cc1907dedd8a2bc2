"""Dissects, filters, counts and changes IP packets by their extension headers.

The work is done by `libwolfaren`, whose calls are formally verified. This package calls it through cffi.
"""

from ._bpf import BpfProgram
from ._captures import Packet, Written, packets
from ._defragmenter import Defragmenter
from ._dissection import (Dissection, End, ExtensionHeader, Fault, FaultKind, Fragment, FragmentKind, HeaderOption, Layer,
                          LenSource, UnknownOption, dissect, protocol_name)
from ._filter import Filter, FilterError, FilterTerm, filter_terms
from ._many import SpanError, dissect_many
from ._rewrite import (Refusal, RewriteError, Rewritten, clear_reserved_bits, has_reserved_bits, in_order, is_in_order,
                       remove_header, rewrite, with_header, with_payload)
from ._statistics import MOST, CaptureError, CaptureOSError, CaptureWarning, Statistics, statistics_of
from ._table import table

__version__ = "0.1.0"

__all__ = ["MOST", "BpfProgram", "CaptureError", "CaptureOSError", "CaptureWarning", "Defragmenter", "Dissection", "End",
           "ExtensionHeader", "Fault", "FaultKind", "Filter", "FilterError", "FilterTerm", "Fragment", "FragmentKind",
           "HeaderOption", "Layer", "LenSource", "Packet", "Refusal", "RewriteError", "Rewritten", "SpanError",
           "Statistics", "UnknownOption", "Written", "clear_reserved_bits", "dissect", "dissect_many", "filter_terms",
           "has_reserved_bits", "in_order", "is_in_order", "packets", "protocol_name", "remove_header", "rewrite",
           "statistics_of", "table", "with_header", "with_payload"]
