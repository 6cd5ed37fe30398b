"""Packing the proved program: where it comes from, a wheel and a Debian package of it. None of this is installed."""
