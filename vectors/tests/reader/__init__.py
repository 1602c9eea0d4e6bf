"""A plain reader and writer of QUIC's wire formats, by the figures and rules of the RFCs. Each choice is the RFC's."""
