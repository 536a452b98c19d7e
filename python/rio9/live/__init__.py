"""The live page: a served desktop, shown in a browser and driven from there, and saved as a page that plays by itself.

screen.py keeps the pixels and makes frames of what changed, rhythm.py says when the server is asked for them,
traffic.py tells whether other clients sent anything, acts.py has the session and what is written in it, watcher.py
holds the session, hub.py is between it and the pages, recording.py keeps frames for a page that plays them, pages.py
makes the pages, and server.py gives them to browsers. command.py has the words of `rio9d live`, save.py
those of `rio9d save`, and repaint.py those of `rio9d repaint`.
"""
