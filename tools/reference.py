"""The seven kinds' formulas in 50 digits: those of crates/*/specs, with every number as the fraction or decimal that it
stands for, and π as π. An iteration that ends at a tolerance is followed to its limit. Settings and points are the exact f64.
Refusals are left out, and what C and P do at a pole: this is for the points that offices have."""

from mpmath import mp, mpf

mp.dps = 50

POLAR_EPSILON = mpf("1e-12")
RHO_EPSILON = mpf("1e-9")
SPHERE_EPSILON = mpf("1e-15")
EQUATOR_TOL = mpf("1e-10")
ONE_PARALLEL = mpf("1e-10")
SETTLED = mpf(10) ** -45
STEPS = 60


def limit(step, value):
    """Where an iteration comes to rest."""
    for _ in range(STEPS):
        value, before = step(value), value
        if abs(value - before) < SETTLED:
            return value
    raise ArithmeticError("an iteration does not come to rest")


def fractions(text):
    """The numbers of `3/2 -27/32`."""
    return [mpf(int(above)) / int(below) for above, below in (word.split("/") for word in text.split())]


def polynomial(x, coefficients):
    """c₀ + c₁ x + c₂ x² + .."""
    total = mpf(0)
    for c in reversed(coefficients):
        total = total * x + c
    return total


def normalized(lon):
    """Between -π and π."""
    return lon - 2 * mp.pi * mp.nint(lon / (2 * mp.pi))


def bounded_arcsine(x):
    return mp.asin(max(mpf(-1), min(mpf(1), x)))


class Map:
    """What all kinds have."""

    def __init__(self, settings):
        self.a, self.f, self.lon0, self.lat0, self.lat1, self.lat2, self.fe, self.fn = map(mpf, settings)
        self.e2 = 2 * self.f - self.f**2
        self.e = mp.sqrt(self.e2)

    def w(self, sin_lat):
        """√(1 - e² sin² φ), by which a is divided for the radius in the prime vertical."""
        return mp.sqrt(1 - self.e2 * sin_lat**2)


# ---- the authalic latitude


def ellipsoidal_q(sin_lat, e):
    """Snyder 3-12."""
    e_sin = e * sin_lat
    return (1 - e**2) * (sin_lat / (1 - e_sin**2) - mp.log((1 - e_sin) / (1 + e_sin)) / (2 * e))


class Authalic(Map):
    def __init__(self, settings):
        super().__init__(settings)
        self.q_p = self.q(mpf(1))
        self.rq = self.a * mp.sqrt(self.q_p / 2)
        e2, e4, e6 = self.e2, self.e2**2, self.e2**3
        self.series = [e2 / 3 + 31 * e4 / 180 + 517 * e6 / 5040, 23 * e4 / 360 + 251 * e6 / 3780, 761 * e6 / 45360]

    def q(self, sin_lat):
        return 2 * sin_lat if self.e2 < SPHERE_EPSILON else ellipsoidal_q(sin_lat, self.e)

    def geodetic(self, beta):
        """Snyder 3-18, to e⁶."""
        if self.e2 < SPHERE_EPSILON:
            return beta
        return beta + sum(c * mp.sin(k * beta) for k, c in zip((2, 4, 6), self.series))


class LambertAzimuthalEqualArea(Authalic):
    """Snyder 24-17 to 24-32."""

    def __init__(self, settings):
        super().__init__(settings)
        self.pole = next((sign for sign in (1, -1) if abs(self.lat0 - sign * mp.pi / 2) < POLAR_EPSILON), 0)
        sin_lat0 = mp.sin(self.lat0)
        self.sin_beta0 = self.q(sin_lat0) / self.q_p
        self.cos_beta0 = mp.sqrt(1 - self.sin_beta0**2)
        self.d = mpf(1) if self.pole else self.a * mp.cos(self.lat0) / (self.w(sin_lat0) * self.rq * self.cos_beta0)

    def forward(self, lon, lat):
        q = self.q(mp.sin(lat))
        cos_d_lon, sin_d_lon = mp.cos_sin(lon - self.lon0)
        if self.pole:
            rho = self.a * mp.sqrt(max(mpf(0), self.q_p - self.pole * q))
            return self.fe + rho * sin_d_lon, self.fn - self.pole * rho * cos_d_lon
        sin_beta = q / self.q_p
        cos_beta = mp.sqrt(1 - sin_beta**2)
        b = self.rq * mp.sqrt(2 / (1 + self.sin_beta0 * sin_beta + self.cos_beta0 * cos_beta * cos_d_lon))
        north = self.cos_beta0 * sin_beta - self.sin_beta0 * cos_beta * cos_d_lon
        return self.fe + b * self.d * cos_beta * sin_d_lon, self.fn + b / self.d * north

    def inverse(self, x, y):
        dx, dy = x - self.fe, y - self.fn
        return self.polar_inverse(dx, dy) if self.pole else self.oblique_inverse(dx, dy)

    def polar_inverse(self, dx, dy):
        rho = mp.sqrt(dx**2 + dy**2)
        if rho < RHO_EPSILON:
            return self.lon0, self.geodetic(self.lat0)
        beta = bounded_arcsine(self.pole * (1 - rho**2 / (self.a**2 * self.q_p)))
        return self.lon0 + mp.atan2(dx, -self.pole * dy), self.geodetic(beta)

    def oblique_inverse(self, dx, dy):
        rho = mp.sqrt((dx / self.d) ** 2 + (self.d * dy) ** 2)
        if rho < RHO_EPSILON:
            return self.lon0, self.lat0
        cos_c, sin_c = mp.cos_sin(2 * bounded_arcsine(rho / (2 * self.rq)))
        beta = bounded_arcsine(cos_c * self.sin_beta0 + self.d * dy * sin_c * self.cos_beta0 / rho)
        north = self.d * rho * self.cos_beta0 * cos_c - self.d**2 * dy * self.sin_beta0 * sin_c
        return self.lon0 + mp.atan2(dx * sin_c, north), self.geodetic(beta)


class SphericalLambertAzimuthalEqualArea(Authalic):
    """Snyder 22-4, 22-5, 24-2, and 20-14, 20-15, 24-16, on the sphere of the ellipsoid's area."""

    def __init__(self, settings):
        super().__init__(settings)
        self.cos_lat0, self.sin_lat0 = mp.cos_sin(self.lat0)

    def forward(self, lon, lat):
        cos_lat, sin_lat = mp.cos_sin(lat)
        cos_d_lon, sin_d_lon = mp.cos_sin(lon - self.lon0)
        b = self.rq * mp.sqrt(2 / (1 + self.sin_lat0 * sin_lat + self.cos_lat0 * cos_lat * cos_d_lon))
        north = self.cos_lat0 * sin_lat - self.sin_lat0 * cos_lat * cos_d_lon
        return self.fe + b * cos_lat * sin_d_lon, self.fn + b * north

    def inverse(self, x, y):
        dx, dy = x - self.fe, y - self.fn
        rho = mp.sqrt(dx**2 + dy**2)
        if rho < RHO_EPSILON:
            return self.lon0, self.lat0
        cos_c, sin_c = mp.cos_sin(2 * bounded_arcsine(rho / (2 * self.rq)))
        lat = bounded_arcsine(cos_c * self.sin_lat0 + dy * sin_c * self.cos_lat0 / rho)
        north = rho * self.cos_lat0 * cos_c - dy * self.sin_lat0 * sin_c
        return self.lon0 + mp.atan2(dx * sin_c, north), lat


class EqualEarth(Authalic):
    """Šavrič, Patterson and Jenny (2018), by the authalic latitude."""

    A1, A2, A3, A4 = map(mpf, ("1.340264", "-0.081106", "0.000893", "0.003796"))
    MAX_Y = mpf("1.3173627591574")
    M = mp.sqrt(3) / 2

    def y(self, psi):
        return psi * (self.A1 + self.A2 * psi**2 + psi**6 * (self.A3 + self.A4 * psi**2))

    def y_derivative(self, psi):
        return self.A1 + 3 * self.A2 * psi**2 + psi**6 * (7 * self.A3 + 9 * self.A4 * psi**2)

    def forward(self, lon, lat):
        psi = mp.asin(self.M * self.q(mp.sin(lat)) / self.q_p)
        lam = normalized(lon - self.lon0)
        return self.fe + self.rq * lam * mp.cos(psi) / (self.M * self.y_derivative(psi)), self.fn + self.rq * self.y(psi)

    def inverse(self, x, y):
        xs = (x - self.fe) / self.rq
        ys = max(-self.MAX_Y, min(self.MAX_Y, (y - self.fn) / self.rq))
        psi = limit(lambda psi: psi - (self.y(psi) - ys) / self.y_derivative(psi), ys)
        lon = self.lon0 + self.M * xs * self.y_derivative(psi) / mp.cos(psi)
        return lon, self.geodetic(bounded_arcsine(mp.sin(psi) / self.M))


class AlbersEqualArea(Map):
    """Snyder 14-1 to 14-19, and 3-16 for the latitude. On a sphere, where e is 0, q is 2 sin φ, n is 14-6 and the latitude 14-8."""

    def __init__(self, settings):
        super().__init__(settings)
        q0, q1, q2 = (self.q(mp.sin(lat)) for lat in (self.lat0, self.lat1, self.lat2))
        m1, m2 = (mp.cos(lat) / self.w(mp.sin(lat)) for lat in (self.lat1, self.lat2))
        if abs(self.lat1 - self.lat2) < ONE_PARALLEL:
            self.n = mp.sin(self.lat1)
        elif self.e == 0:
            self.n = (mp.sin(self.lat1) + mp.sin(self.lat2)) / 2
        else:
            self.n = (m1**2 - m2**2) / (q2 - q1)
        self.c = m1**2 + self.n * q1
        self.rho0 = self.rho(q0)

    def q(self, sin_lat):
        return 2 * sin_lat if self.e == 0 else ellipsoidal_q(sin_lat, self.e)

    def rho(self, q):
        return self.a * mp.sqrt(abs(self.c - self.n * q)) / self.n

    def forward(self, lon, lat):
        rho = self.rho(self.q(mp.sin(lat)))
        cos_theta, sin_theta = mp.cos_sin(self.n * normalized(lon - self.lon0))
        return self.fe + rho * sin_theta, self.fn + self.rho0 - rho * cos_theta

    def inverse(self, x, y):
        dx, dy = x - self.fe, self.rho0 - (y - self.fn)
        turned = mp.sign(self.n)
        q = (self.c - (dx**2 + dy**2) * self.n**2 / self.a**2) / self.n
        return self.lon0 + mp.atan2(turned * dx, turned * dy) / self.n, self.latitude(q)

    def latitude(self, q):
        start = mp.asin(q / 2)
        return start if self.e == 0 else limit(lambda lat: self.latitude_round(q, lat), start)

    def latitude_round(self, q, lat):
        cos_lat, sin_lat = mp.cos_sin(lat)
        missing = (q - ellipsoidal_q(sin_lat, self.e)) / (1 - self.e2)
        return lat + self.w(sin_lat) ** 4 / (2 * cos_lat) * missing


class CassiniSoldner(Map):
    """Snyder 13-7 to 13-13, with the arc of 3-21 and 3-26."""

    def __init__(self, settings):
        super().__init__(settings)
        e2, e4, e6 = self.e2, self.e2**2, self.e2**3
        self.ep2 = e2 / (1 - e2)
        self.arc = [
            self.a * c
            for c in (
                1 - e2 / 4 - 3 * e4 / 64 - 5 * e6 / 256,
                3 * e2 / 8 + 3 * e4 / 32 + 45 * e6 / 1024,
                15 * e4 / 256 + 45 * e6 / 1024,
                35 * e6 / 3072,
            )
        ]
        e1 = third_flattening(e2)
        self.back = [
            3 * e1 / 2 - 27 * e1**3 / 32,
            21 * e1**2 / 16 - 55 * e1**4 / 32,
            151 * e1**3 / 96,
            1097 * e1**4 / 512,
        ]
        self.m0 = self.m(self.lat0)

    def m(self, lat):
        c0, c2, c4, c6 = self.arc
        return c0 * lat - c2 * mp.sin(2 * lat) + c4 * mp.sin(4 * lat) - c6 * mp.sin(6 * lat)

    def forward(self, lon, lat):
        cos_lat, sin_lat = mp.cos_sin(lat)
        nu = self.a / self.w(sin_lat)
        tan_lat = sin_lat / cos_lat
        t = tan_lat**2
        c = self.ep2 * cos_lat**2
        a = normalized(lon - self.lon0) * cos_lat
        x = nu * (a - t * a**3 / 6 - (8 - t + 8 * c) * t * a**5 / 120)
        y = self.m(lat) - self.m0 + nu * tan_lat * (a**2 / 2 + (5 - t + 6 * c) * a**4 / 24)
        return self.fe + x, self.fn + y

    def inverse(self, x, y):
        mu1 = (self.m0 + y - self.fn) / self.arc[0]
        lat1 = mu1 + sum(c * mp.sin(k * mu1) for k, c in zip((2, 4, 6, 8), self.back))
        cos_lat1, sin_lat1 = mp.cos_sin(lat1)
        tan_lat1 = sin_lat1 / cos_lat1
        w = self.w(sin_lat1)
        nu1, rho1 = self.a / w, self.a * (1 - self.e2) / w**3
        t1 = tan_lat1**2
        d = (x - self.fe) / nu1
        lat = lat1 - nu1 * tan_lat1 / rho1 * (d**2 / 2 - (1 + 3 * t1) * d**4 / 24)
        return self.lon0 + (d - t1 * d**3 / 3 + (1 + 3 * t1) * t1 * d**5 / 15) / cos_lat1, lat


# ---- the meridian arc


def third_flattening(e2):
    one_minus_f = mp.sqrt(1 - e2)
    return (1 - one_minus_f) / (1 + one_minus_f)


class Meridian(Map):
    """Karney, arXiv:2212.05818, to the sixth order in n: the rows of A5 and A6, each in powers of n²."""

    FACTOR = fractions("1/1 1/4 1/64 1/256")
    MU_PHI = ("-3/2 9/16 -3/32", "15/16 -15/32 135/2048", "-35/48 105/256", "315/512 -189/512", "-693/1280", "1001/2048")
    PHI_MU = ("3/2 -27/32 269/512", "21/16 -55/32 6759/4096", "151/96 -417/128", "1097/512 -15543/2560", "8011/2560", "293393/61440")

    def __init__(self, settings):
        super().__init__(settings)
        n = third_flattening(self.e2)
        self.factor = polynomial(n**2, self.FACTOR) / (1 + n)
        self.mu_phi, self.phi_mu = (
            [n ** (i + 1) * polynomial(n**2, fractions(row)) for i, row in enumerate(rows)] for rows in (self.MU_PHI, self.PHI_MU)
        )
        self.ml0 = self.arc(self.lat0, *mp.cos_sin(self.lat0))

    def arc(self, lat, cos_lat, sin_lat):
        """From the equator, in units of a."""
        return self.factor * (lat + sines(cos_lat, sin_lat, self.mu_phi))

    def latitude(self, arc):
        mu = arc / self.factor
        return mu + sines(*mp.cos_sin(mu), self.phi_mu)


def sines(cos_zeta, sin_zeta, coefficients):
    """c₀ sin 2ζ + c₁ sin 4ζ + .., by Clenshaw's sums."""
    x = 2 * (cos_zeta - sin_zeta) * (cos_zeta + sin_zeta)
    u0 = u1 = mpf(0)
    for c in reversed(coefficients):
        u0, u1 = x * u0 - u1 + c, u0
    return 2 * sin_zeta * cos_zeta * u0


class AmericanPolyconic(Meridian):
    """Snyder 18-12 to 18-22. The sphere's formulas, 18-1 to 18-10, are these with e² = 0."""

    def forward(self, lon, lat):
        lam = normalized(lon - self.lon0)
        if abs(lat) <= EQUATOR_TOL:
            return self.fe + self.a * lam, self.fn - self.a * self.ml0
        cos_lat, sin_lat = mp.cos_sin(lat)
        cot = cos_lat / (self.w(sin_lat) * sin_lat)
        cos_e, sin_e = mp.cos_sin(lam * sin_lat)
        y = self.arc(lat, cos_lat, sin_lat) - self.ml0 + cot * (1 - cos_e)
        return self.fe + self.a * cot * sin_e, self.fn + self.a * y

    def inverse(self, x, y):
        xs, ys = (x - self.fe) / self.a, (y - self.fn) / self.a + self.ml0
        if abs(ys) <= EQUATOR_TOL:
            return self.lon0 + xs, mpf(0)
        lat = limit(lambda lat: self.newton(xs, ys, lat), ys)
        sin_lat = mp.sin(lat)
        return self.lon0 + mp.asin(xs * mp.tan(lat) * self.w(sin_lat)) / sin_lat, lat

    def newton(self, xs, ys, lat):
        """A round for the latitude, Snyder 18-21."""
        cos_lat, sin_lat = mp.cos_sin(lat)
        w = self.w(sin_lat)
        c = sin_lat * w / cos_lat
        m = self.arc(lat, cos_lat, sin_lat)
        m_slope = (1 - self.e2) / w**3
        squares = m**2 + xs**2 + ys**2
        above = 2 * m + c * squares - 2 * ys * (c * m + 1)
        turn = self.e2 * sin_lat * cos_lat * (squares - 2 * ys * m) / c
        below = turn + 2 * (ys - m) * (c * m_slope - 1 / (sin_lat * cos_lat)) - 2 * m_slope
        return lat + above / below


class GuamProjection(Meridian):
    """IOGP 7-2, method 9831. Its inverse is three rounds by definition, not a limit."""

    ROUNDS = 3

    def forward(self, lon, lat):
        lam = normalized(lon - self.lon0)
        cos_lat, sin_lat = mp.cos_sin(lat)
        x = lam * cos_lat / self.w(sin_lat)
        y = self.arc(lat, cos_lat, sin_lat) - self.ml0 + x * lam * sin_lat / 2
        return self.fe + self.a * x, self.fn + self.a * y

    def inverse(self, x, y):
        xs, ys = (x - self.fe) / self.a, (y - self.fn) / self.a
        lat = self.lat0
        for _ in range(self.ROUNDS):
            w = self.w(mp.sin(lat))
            lat = self.latitude(self.ml0 + ys - xs**2 / 2 * mp.tan(lat) * w)
        return self.lon0 + xs * w / mp.cos(lat), lat


KINDS = {
    "L": LambertAzimuthalEqualArea,
    "S": SphericalLambertAzimuthalEqualArea,
    "A": AlbersEqualArea,
    "E": EqualEarth,
    "C": CassiniSoldner,
    "P": AmericanPolyconic,
    "G": GuamProjection,
}
