"""Fields and matrices over them: all arithmetic with symbols goes through here."""


class Field:
    """The polynomials with coefficients modulo p, taken modulo one of them.

    A symbol is the number whose digits in base p are the coefficients, the constant term least significant: with p = 2
    the symbol 2 is x and 3 is x + 1. The modulus is given from its constant term up; its last coefficient is 1. Modulo
    x there are only constants, the integers modulo p. Sums and products are worked out once, into tables.
    """

    def __init__(self, p, modulus):
        self.p = p
        self.modulus = modulus
        self.degree = len(modulus) - 1
        self.q = p**self.degree
        symbols = range(self.q)
        self.sums = [[self.worked_out_sum(a, b) for b in symbols] for a in symbols]
        self.products = [[self.worked_out_product(a, b) for b in symbols] for a in symbols]
        self.negatives = [row.index(0) for row in self.sums]
        self.inverses = [None] + [row.index(1) for row in self.products[1:]]

    def coefficients(self, symbol):
        return [symbol // self.p**i % self.p for i in range(self.degree)]

    def symbol(self, coefficients):
        return sum(c % self.p * self.p**i for i, c in enumerate(coefficients))

    def worked_out_sum(self, a, b):
        return self.symbol([x + y for x, y in zip(self.coefficients(a), self.coefficients(b))])

    def worked_out_product(self, a, b):
        product = [0] * (2 * self.degree - 1)
        for i, x in enumerate(self.coefficients(a)):
            for j, y in enumerate(self.coefficients(b)):
                product[i + j] += x * y
        # Take multiples of the modulus away until nothing is left at its degree or above.
        while len(product) > self.degree:
            top = product.pop()
            for i, c in enumerate(self.modulus[:-1]):
                product[len(product) - self.degree + i] -= top * c
        return self.symbol(product)

    def dot(self, xs, ys):
        total = 0
        for x, y in zip(xs, ys):
            total = self.sums[total][self.products[x][y]]
        return total

    def scaled(self, factor, row):
        multiples = self.products[factor]
        return [multiples[x] for x in row]

    def sum_of_rows(self, xs, ys):
        return [self.sums[x][y] for x, y in zip(xs, ys)]

    def difference_of_rows(self, xs, ys):
        return [self.sums[x][self.negatives[y]] for x, y in zip(xs, ys)]


TWO = Field(2, (0, 1))  # modulo x
THREE = Field(3, (0, 1))
FOUR = Field(2, (1, 1, 1))  # modulo x² + x + 1


def transposed(rows):
    return [list(column) for column in zip(*rows)]


def unit_rows(k):
    return [[int(i == j) for j in range(k)] for i in range(k)]


def without(row, place):
    """The row, or the list of rows, without the one at this place."""
    return row[:place] + row[place + 1 :]


def reduce_rows(field, rows):
    """Gauss and Jordan: the reduced rows, and the columns in which one row has 1 and the others 0."""
    rows = [list(row) for row in rows]
    pivots = []
    for column in range(len(rows[0])):
        done = len(pivots)
        found = next((i for i in range(done, len(rows)) if rows[i][column]), None)
        if found is None:
            continue
        rows[done], rows[found] = rows[found], rows[done]
        rows[done] = field.scaled(field.inverses[rows[done][column]], rows[done])
        for i, row in enumerate(rows):
            if i != done and row[column]:
                rows[i] = field.difference_of_rows(row, field.scaled(row[column], rows[done]))
        pivots.append(column)
    return rows, pivots
