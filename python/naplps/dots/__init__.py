"""The raster of a page: which dots of 256 x 200 its entries paint, by the rule of our own of docs/RASTER.md."""
from .walk import Raster, raster

__all__ = ["Raster", "raster"]
