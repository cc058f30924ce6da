"""Listers with another order, or for another sheet, than the call of edition 2 (request
L6), each as what it has of its own."""

from math import prod

from listing import PRODUCTS, Order
from plant import SECOND

LOW_WORD = 2**32 - 1
TOP_BIT = 2**63


class HighestCode(Order):
    """Of equal products the highest code first."""

    def key(self, plant, state):
        rank, code = super().key(plant, state)
        return rank, -code


class HighestValue(Order):
    """The best state has the highest value of the greatest weight."""

    def best_value(self, costs):
        return max(value for value, cost in enumerate(costs) if cost == max(costs))


class LeastWeight(Order):
    """The best state has the least weights."""

    def best_value(self, costs):
        return costs.index(min(costs))


class BySum(Order):
    """Products are filled in, and the greatest sum comes first."""

    def key(self, plant, state):
        own = (costs[value] for costs, value in zip(plant.costs, state))
        return -sum(own), super().key(plant, state)[1]


def cut(weights):
    return prod(weights) & LOW_WORD


def signed(product):
    return product - 2 * TOP_BIT if product >= TOP_BIT else product


OTHER_ORDERS = {
    "the smallest product first": PRODUCTS._replace(rank=lambda product: product),
    "the highest code on a tie": HighestCode(*PRODUCTS),
    "the highest of equal weights": HighestValue(*PRODUCTS),
    "the least weights in the best state": LeastWeight(*PRODUCTS),
    "the sum in place of the product": PRODUCTS._replace(whole=sum),
    "the greatest sum first": BySum(*PRODUCTS),
    "products cut to 32 bits": PRODUCTS._replace(whole=cut),
    "products compared by 32 bits": PRODUCTS._replace(rank=lambda p: -(p & LOW_WORD)),
    "products compared as signed": PRODUCTS._replace(rank=lambda p: -signed(p)),
    "products compared by 53 bits": PRODUCTS._replace(rank=lambda p: -float(p)),
}
OTHER_SHEETS = {
    "a weight of zero taken": PRODUCTS._replace(edition=SECOND._replace(least=0)),
    "nine decision variables taken": PRODUCTS._replace(
        edition=SECOND._replace(decisions_most=9)
    ),
}
