"""An independent witness of `clearance from`: random drawings with known places, what other programs draw of a drawing, and
the distance between that and the outline of the sheets.
"""
