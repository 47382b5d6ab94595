"""Data sets as GDAL writes them, each with one CRS. GDAL is imported where it is needed, since it may not be there."""
from __future__ import annotations

import pathlib
from typing import Any, Tuple

CORNER = (400000, 10, 0, 500000, 0, -10)


def reference_of(code: int) -> Any:
    """A CRS of EPSG."""
    from osgeo import osr

    reference = osr.SpatialReference()
    reference.ImportFromEPSG(code)
    return reference


def make_vector(
    path: pathlib.Path, driver: str, reference: Any, *layers: str, has_points: bool = False, has_field: bool = False
) -> None:
    """Layers without a feature, or with one; where none is named one that is named as the file. Some formats need a
    field."""
    from osgeo import gdal, ogr

    data_set = gdal.GetDriverByName(driver).Create(str(path), 0, 0, 0, gdal.GDT_Unknown)
    for name in layers or [path.stem]:
        layer = data_set.CreateLayer(name, reference, ogr.wkbPoint)
        if has_field:
            layer.CreateField(ogr.FieldDefn("n", ogr.OFTInteger))
        if has_points:
            feature = ogr.Feature(layer.GetLayerDefn())
            feature.SetGeometry(ogr.CreateGeometryFromWkt("POINT (1 2)"))
            layer.CreateFeature(feature)


def make_raster(path: pathlib.Path, driver: str, reference: Any, corner: Tuple[float, ...] = CORNER) -> None:
    """Four pixels; without a CRS where none is given."""
    from osgeo import gdal

    data_set = gdal.GetDriverByName(driver).Create(str(path), 2, 2, 1, gdal.GDT_Byte)
    if reference:
        data_set.SetSpatialRef(reference)
        data_set.SetGeoTransform(corner)
