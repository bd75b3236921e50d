"""A small TrueType rasterizer in Python, written apart from the proved program. It confirms the suite's answers."""
