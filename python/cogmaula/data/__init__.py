"""From measured data to a cluster file: the recipe, the tables, and the file that they make."""

from .faults import RecipeFault, TableFault
from .looks import Look
from .recipe_cluster import Made, cluster_of, from_csv, made_by, made_of
from .recipe import Connection, PriceTable, Recipe, Table, Window, read_recipe
from .tables import Measured, read_table

__all__ = [
    "Connection",
    "Look",
    "Made",
    "Measured",
    "PriceTable",
    "Recipe",
    "RecipeFault",
    "Table",
    "TableFault",
    "Window",
    "cluster_of",
    "from_csv",
    "made_by",
    "made_of",
    "read_recipe",
    "read_table",
]
