"""Clients that misbehave and clients that behave, and others that use a server over sockets: what tries the program as a whole."""
