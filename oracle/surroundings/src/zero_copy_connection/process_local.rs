//! Left out: the comparison names its storage itself.
