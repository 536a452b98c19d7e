"""`rio9d translate`: stands between a client and a server, and makes of what the server's profile leaves out what it
has.

`command` listens; `session` passes the messages of 9P2000 on; `drawing` translates the writes of draw messages, by
`packed` (compressed rows), `colours` (the map of colours), and `shapes` (lines, ellipses, arcs and polygons, of
`polygons`, `ellipses` and `trigonometry`), which `masks` makes rectangles and masks of; `cursors` keeps the file
`cursor`. All of it is outside the proof.
"""
