"""What happened to an instrument, told to people: `scanvolt-explain`, over `scanvolt explain` (docs/STEPS.md).

tables: names of the documents. lines: the lines that the program prints. running: runs it. calls: calls and replies in words.
words: names and numbers in words. story: calls, waits, messages. telling: what changed. doers: who did it. reasons: why a call
waits. tries: what would end that. blocks, text: the timeline. ending: the end. asked, model, why: the causes of a value. slots,
page, table: the page. explanation: all of it for one session. command: the command line.
"""
