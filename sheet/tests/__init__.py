"""The sheet's tests. They run without the proved program: kit/model answers in its place, and the kit's recorded answers are compared."""
