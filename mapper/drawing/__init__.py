"""The map as SVG, and the charts."""
