"""Job sheets from drawings: reading DXF and SVG, cubics for their curves, and how far those are from the drawing.

`dxf` and `svg` read a drawing to the curves of `curves`; `fitting` replaces each by lines and cubics; `outline` rounds them
to whole hundredths of a millimetre and gathers the bound W. Lengths are hundredths of a millimetre throughout.
"""
