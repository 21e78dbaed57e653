"""What columns are called, in several languages, and how two headers are compared."""
import re
import unicodedata

PLACES = (  # x and y, which go together
    ('x', 'y'), ('easting', 'northing'), ('east', 'north'), ('x_coordinate', 'y_coordinate'), ('coord_x', 'coord_y'), ('e', 'n'), ('point_x', 'point_y'),
    ('x_coord', 'y_coord'), ('xcoord', 'ycoord'), ('xcoordinate', 'ycoordinate'), ('coordx', 'coordy'), ('eastings', 'northings'), ('x_utm', 'y_utm'),
    ('utm_x', 'utm_y'), ('utm_e', 'utm_n'), ('utm_easting', 'utm_northing'), ('utm_east', 'utm_north'), ('xutm', 'yutm'),
    ('rechtswert', 'hochwert'), ('ostwert', 'nordwert'), ('rw', 'hw'), ('x_koordinate', 'y_koordinate'), ('koordinate_x', 'koordinate_y'), ('ost', 'nord'),
    ('est', 'nord'), ('coordonnee_x', 'coordonnee_y'), ('x_coordonnee', 'y_coordonnee'), ('este', 'norte'), ('coordenada_x', 'coordenada_y'),
)
# What a column may be called, the first found first. Case, accents, spaces and what stands in brackets do not count: "Water level [m]" is water_level.
CALLED = {
    'name': ('name', 'well', 'id', 'well_name', 'well_id', 'borehole', 'bore', 'node', 'point', 'label', 'borehole_id', 'bore_id', 'well_no', 'hole', 'hole_id',
             'hole_no', 'bore_no', 'borehole_no', 'bh', 'piezometer', 'station', 'station_id', 'site', 'site_id', 'point_id',
             'brunnen', 'messstelle', 'bezeichnung', 'bohrung', 'pegel', 'grundwassermessstelle', 'gwm', 'nom', 'forage', 'puits',
             'piezometre', 'nombre', 'pozo', 'sondeo', 'piezometro', 'punto'),
    'x': tuple(dict.fromkeys(x for x, _ in PLACES)),
    'y': tuple(dict.fromkeys(y for _, y in PLACES)),
    'level': ('level', 'head', 'water_level', 'waterlevel', 'water_table', 'hydraulic_head', 'groundwater_level', 'gw_level', 'gwl', 'wl',
              'groundwater_elevation', 'gw_elevation', 'water_elevation', 'water_level_elevation', 'water_table_elevation', 'groundwater_head',
              'groundwater_table', 'piezometric_level', 'piezometric_head', 'piezometric_elevation', 'potentiometric_level', 'potentiometric_head',
              'wasserstand', 'grundwasserstand', 'gw_stand', 'gwstand', 'wasserspiegel', 'grundwasserspiegel', 'gw_spiegel', 'standrohrspiegelhohe',
              'standrohrspiegelhoehe', 'niveau', 'niveau_d_eau', 'niveau_deau', 'niveau_eau', 'niveau_de_l_eau', 'niveau_piezometrique', 'niveau_de_la_nappe',
              'niveau_nappe', 'cote_piezometrique', 'cote_nappe', 'cote_de_la_nappe', 'cote_eau', 'charge_hydraulique', 'nivel', 'nivel_freatico',
              'nivel_piezometrico', 'nivel_del_agua', 'nivel_de_agua', 'nivel_agua', 'cota_piezometrica', 'cota_del_agua', 'cota_agua', 'carga_hidraulica'),
    'depth': ('depth', 'depth_to_water', 'depth_to_groundwater', 'depth_to_water_table', 'depth_to_water_level', 'water_depth', 'groundwater_depth', 'gw_depth',
              'water_level_depth', 'dtw', 'dtgw', 'dtwl', 'flurabstand', 'grundwasserflurabstand', 'gw_flurabstand', 'abstich', 'abstichmass', 'profondeur',
              'profondeur_eau', 'profondeur_d_eau', 'profondeur_de_l_eau', 'profondeur_nappe', 'profondeur_de_la_nappe', 'profundidad', 'profundidad_agua',
              'profundidad_del_agua', 'profundidad_nivel', 'profundidad_del_nivel'),
    'ground': ('ground', 'ground_level', 'groundlevel', 'ground_height', 'ground_elevation', 'ground_surface', 'ground_surface_elevation', 'surface',
               'surface_level', 'surface_elevation', 'land_surface', 'land_surface_elevation', 'gl', 'terrain', 'gelande', 'gelaende', 'gelandehohe',
               'gelaendehoehe', 'gelandeoberkante', 'gelaendeoberkante', 'gok', 'gok_hohe', 'gok_hoehe', 'sol', 'cote_sol', 'cote_du_sol', 'altitude_sol',
               'altitude_du_sol', 'cote_terrain', 'terreno', 'cota_terreno', 'cota_del_terreno', 'nivel_del_terreno'),
    'height': ('elevation', 'elev', 'z', 'altitude', 'height', 'hohe', 'hoehe', 'cote', 'cota'),  # the ground's beside a level, else the water's
    'date': ('date', 'datum', 'day', 'datetime', 'timestamp', 'date_measured', 'measured_on', 'measurement_date', 'reading_date', 'messdatum', 'ablesedatum',
             'date_de_mesure', 'jour', 'fecha', 'fecha_de_medicion', 'dia'),
}
CASING = {'abstich', 'abstichmass'}  # depths that are measured from the top of the casing
DEGREES = {'lat', 'latitude', 'lon', 'long', 'longitude', 'lng', 'latitud', 'longitud', 'breitengrad', 'langengrad', 'laengengrad'}
BRACKETS = re.compile(r'\[(.*?)\]|\((.*?)\)', re.DOTALL)


def unaccented(text):
    """Small letters without their accents."""
    return ''.join(c for c in unicodedata.normalize('NFKD', text.lower()) if not unicodedata.combining(c))


def plain(header):
    """A header by which columns are found: small letters, no accents, no brackets, one underscore for what stands between words."""
    return re.sub(r'[\W_]+', '_', unaccented(BRACKETS.sub(' ', header))).strip('_')


def bracketed(header):
    """What stands in the brackets of a header, each without the spaces around it."""
    return [(square or round_).strip() for square, round_ in BRACKETS.findall(header)]


def words_of(text):
    """The words of a unit or a header. An ü stays apart from a u, since 'm ü. GOK' is above the ground and 'm u. GOK' below it."""
    text = unicodedata.normalize('NFC', text.lower()).replace('ü', 'ue').replace('ß', 'ss')
    return re.findall(r'[^\W_]+', unaccented(re.sub(r"(?<=\w)[.'’](?=\w|\s|$)", '', text)))
