/* The commands of tools/ask, which reads these rows too: a name, and the modes that it takes, each a word of main.c. Each
   command is answered by a file of its own. */
COMMAND(observe, "plain strict")
COMMAND(options, "plain")
COMMAND(search, "plain")
COMMAND(batch, "plain strict")
COMMAND(line, "plain")
COMMAND(ttl, "plain")
COMMAND(places, "plain")
COMMAND(record, "plain")
COMMAND(raw, "plain")
COMMAND(rawpacket, "plain strict")
COMMAND(compile, "plain")
