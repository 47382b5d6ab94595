#!/bin/sh
# Makes a GeoPackage of layers of one point each, by GDAL: layers.sh FILE [wkt1]. SURVEY:31 is a project's own code for
# EPSG:32631. WKT1 can't say the CRS of the layer heights, so for it GDAL gives the file the column definition_12_063;
# with the word wkt1 that layer is left out, and the file has only WKT1.
set -e
file=$1
rm -f "$file"
own=$(sed 's/ID\["EPSG",32631\]\]$/ID["SURVEY",31]]/' "$(dirname -- "$0")/exports/utm31_projinfo_2019.wkt")

add() {
    printf '%s' '{"type":"Point","coordinates":[3,52]}' |
        ogr2ogr -f GPKG $more -nln "$1" -a_srs "$2" "$file" /vsistdin/
    more=-update
}

more=
[ "$2" = wkt1 ] || add heights EPSG:4979
add tiles EPSG:32631
add roads EPSG:32631
add parcels "$own"
add wells EPSG:28992
