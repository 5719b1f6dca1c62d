"""What the tools of this folder share, in plain Python with nothing but the standard library.

The program is proved and small; these tools stand around it. They read its texts and its files, draw them, explain its
refusals and write matches for it. Nothing that is proved depends on them, and where a tool and the program disagree the
program is right.
"""
