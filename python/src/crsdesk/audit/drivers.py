"""The drivers of GDAL by which files are read."""

from __future__ import annotations

from typing import Dict, Tuple

# What GDAL reads, by its drivers' names. Files that name others to be read, or to be fetched, aren't among them.
DRIVERS: Dict[str, Tuple[str, ...]] = {
    ".tif": ("GTiff",),
    ".tiff": ("GTiff",),
    ".shp": ("ESRI Shapefile",),
    ".nc": ("netCDF", "HDF5"),
    ".nc4": ("netCDF", "HDF5"),
    ".fgb": ("FlatGeobuf",),
    ".gml": ("GML",),
    ".geojson": ("GeoJSON",),
    ".kml": ("LIBKML", "KML"),
    ".jp2": ("JP2OpenJPEG", "JP2KAK", "JP2ECW", "JP2MrSID"),
    ".img": ("HFA",),
    ".asc": ("AAIGrid",),
    ".grb": ("GRIB",),
    ".grb2": ("GRIB",),
    ".grib": ("GRIB",),
    ".h5": ("HDF5", "BAG"),
    ".hdf5": ("HDF5",),
    ".bag": ("BAG",),
    ".hdf": ("HDF4",),
    ".tab": ("MapInfo File",),
    ".mif": ("MapInfo File",),
    ".dgn": ("DGN",),
    ".dxf": ("DXF",),
    ".parquet": ("Parquet",),
    ".gdb": ("OpenFileGDB",),
}
# In an archive a database is read by GDAL.
DRIVERS_OF_MEMBERS: Dict[str, Tuple[str, ...]] = {**DRIVERS, ".gpkg": ("GPKG",)}
# Those that the drivers above use in turn: for a part of a file, or to keep what they read.
INNER = ("HDF4Image", "HDF5Image", "MEM", "Memory")
ALL_DRIVERS = frozenset((*INNER, *(name for names in DRIVERS_OF_MEMBERS.values() for name in names)))
