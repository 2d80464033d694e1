"""What a hub has served, or iodef-redact let through, as STIX 2.1, and back: the library and the command iodef-hub-stix.

    from iodef_hub_stix.excerpt import Excerpt
    from iodef_hub_stix.making import objects_of
    objects = objects_of(Excerpt.of_answer(answer, hub="hub.example.org"), "2026-01-01T00:00:00.000Z")

Needs Python 3.11 only, and opens no connection.
"""
