"""A session with scanvolt, from its capture to a replay script and a comparison: `scanvolt-capture`.

packets: the packets that tshark reads. streams: the bytes that tshark follows. flows: what a session is made
of. session: what the server was given, and what it sent. script: the lines of a replay. compare: compares
the replies of the replay with those of the capture. orders: calls taken the other way round. virtually: the
same calls in virtual time. recorded: the server's own record. told: what is printed. telling: what is
printed while it runs. command: the command line.
"""
