"""The command iodef-redact-mail: an incident report by mail, to each recipient what its clearance reaches.

`partners` reads who the recipients are, `engine` asks the proved engine what each may see, `plan` decides what each gets, `keys`
and `messages` make the mail, `journal` keeps what was sent, `sending` talks to the mail server, and `words` has the options.
"""
