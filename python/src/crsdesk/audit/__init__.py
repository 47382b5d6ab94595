"""The audit of an archive: ``python -m crsdesk audit PATH...`` (docs/AUDIT.md).

``collecting`` finds the files and gives them to processes; ``reading`` takes the texts out of a file, with GDAL as
``offline`` has it and its ``drivers``, except ``damage``; ``judging`` asks the library what each spells, and
``converting`` what PROJ reads of those that it refuses; ``registry`` asks PROJ's database, by ``proj``. ``report``
makes the data of them, with the ``kinds`` of differences and the ``datasets``; ``html`` (``marking`` what differs),
``data`` (JSON), ``table`` (CSV) and ``terminal`` write it. ``command`` is the command line's part. Only ``command``
imports what needs jinja2 and rich.
"""
