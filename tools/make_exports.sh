#!/bin/sh
# Writes texts of CRSs as tools export them into a folder, a line each, as examples/exports keeps them: PROJ 9.1.1 with
# EPSG v10.076, GDAL 3.6.2 and pyproj 3.4.1 wrote those; poland*.wkt, which have more lines, are in examples. Run by hand,
# by no test: other versions write other texts.
#
#     make_exports.sh FOLDER
#
# It takes projinfo, gdalsrsinfo, gdal_create, ogr2ogr, sqlite3, and Python with pyproj.
set -e
folder=$1
[ -n "$folder" ] || { echo "make_exports.sh: a folder is missing" >&2; exit 2; }
mkdir -p "$folder"
made=$(mktemp -d)
trap 'rm -rf "$made"' EXIT
echo '{"type":"Point","coordinates":[3,52]}' > "$made/point.geojson"

for pair in wgs84=4326 utm31=32631 rd=28992 rdnap=7415 navd88=5703 itrf2014=7789; do
    name=${pair%=*}
    code=EPSG:${pair#*=}
    for layout in 2019 2015 2019_SIMPLIFIED 2015_SIMPLIFIED; do
        suffix=$(echo "$layout" | tr '[:upper:]' '[:lower:]')
        projinfo -q --single-line -o "WKT2:$layout" "$code" > "$folder/${name}_projinfo_$suffix.wkt"
    done
done
projinfo -q -o WKT2:2019 EPSG:3120 > "$folder/poland.wkt"
projinfo -q -o WKT2:2019 EPSG:2171 > "$folder/poland_2171.wkt"
gdalsrsinfo -o wkt2_2015 EPSG:3120 | sed '/^$/d' > "$folder/poland_gdal_2015.wkt"
gdalsrsinfo --single-line -o wkt2_2019 EPSG:4326 | sed '/^$/d' > "$folder/wgs84_gdalsrsinfo_2019.wkt"
projinfo -q --single-line --boundcrs-to-wgs84 -o WKT1:GDAL EPSG:31467 | sed '/^$/d' > "$folder/dhdn_towgs84.prj"
projinfo -q --single-line -o WKT2:2019 "$(cat "$folder/dhdn_towgs84.prj")" > "$folder/dhdn_boundcrs.wkt"

for pair in utm31=32631 rdnap=7415; do
    gdal_create -q -of GTiff -outsize 2 2 -bands 1 -a_srs "EPSG:${pair#*=}" -a_ullr 3 50 4 49 "$made/a.tif"
    gdalsrsinfo --single-line -o wkt2_2019 "$made/a.tif" | sed '/^$/d' > "$folder/${pair%=*}_geotiff.wkt"
    rm "$made/a.tif"
done
for pair in wgs84=4326 utm31=32631 rd=28992; do
    name=${pair%=*}
    mkdir "$made/$name"
    ogr2ogr -a_srs "EPSG:${pair#*=}" "$made/$name/a.shp" "$made/point.geojson"
    gdalsrsinfo --single-line -o wkt2_2019 "$made/$name/a.shp" | sed '/^$/d' > "$folder/${name}_shapefile.wkt"
    projinfo -q --single-line -o WKT2:2019 "$(cat "$made/$name/a.prj")" > "$folder/${name}_prj.wkt"
done
cp "$made/wgs84/a.prj" "$folder/wgs84_esri.prj"

# The row 4326, which GDAL adds by itself beside a layer that needs the column.
ogr2ogr -a_srs EPSG:4979 "$made/a.gpkg" "$made/point.geojson"
sqlite3 "$made/a.gpkg" 'SELECT definition_12_063 FROM gpkg_spatial_ref_sys WHERE srs_id = 4326' > "$folder/wgs84_gpkg.wkt"

python3 - "$folder" <<'END'
import pathlib
import sys

from pyproj import CRS

folder = pathlib.Path(sys.argv[1])
texts = {
    "wgs84_pyproj_2019": CRS.from_epsg(4326),
    "wgs84_wkt1": CRS.from_user_input(CRS.from_epsg(4326).to_wkt("WKT1_GDAL")),
    "rd_wkt1": CRS.from_user_input(CRS.from_epsg(28992).to_wkt("WKT1_GDAL")),
    "wgs84_proj4": CRS.from_proj4("+proj=longlat +datum=WGS84 +no_defs"),
    "utm31_proj4": CRS.from_proj4("+proj=utm +zone=31 +datum=WGS84 +units=m +no_defs"),
}
for name, crs in texts.items():
    (folder / f"{name}.wkt").write_text(crs.to_wkt() + "\n", encoding="utf-8")
END
