"""The command iodef-hub-xml: IODEF version 2 in XML (RFC 7970) to the JSON of RFC 8727 as a hub reads it, and back.

`table` says how each member of each class is written in both; `to_json` and `to_xml` convert by it, `tree` and `documents` read
under limits, `marks` looks at labels, and `words` has the commands and options. It opens no connection.
"""
