"""The command iodef-hub-ask: `words` has its commands and options, and each other module one subject of them."""
