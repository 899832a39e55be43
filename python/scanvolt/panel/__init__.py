"""The instrument's front panel as a page: what a running server does, live, and knobs for its inputs.

`scanvolt.panel.command` is the command `scanvolt-panel`. A `Watch` follows the record of a server through `scanvolt explain`, a
`Front` is what the panel shows of that, and `web` serves it on 127.0.0.1.
"""
