"""Total unimodularity and its relatives, with proved answers: matrices in, evidence out.

The proved program `cmr` decides; this package runs it and reads what it wrote. Rows and columns are counted from 0 here, and
from 1 in the program's texts.

    >>> from cmr_matrices import is_totally_unimodular
    >>> bool(is_totally_unimodular([[1, 1, 0], [0, 1, 1]]))
    True
"""

from .errors import (
    BadCoefficients,
    BadCommandLine,
    BadEntry,
    BadInput,
    BadText,
    CannotRead,
    CannotWrite,
    CmrError,
    CommandMissing,
    Family,
    LibraryMissing,
    OutOfMemory,
    ProgramFault,
    ProgramMissing,
    Refused,
    TextPlace,
    TimeLimitReached,
    Undecided,
    UnprovedProgram,
    Unreadable,
)
from .evidence.chains import Chain, ChainStep
from .evidence.edge_lists import graph_of_edges, graph_of_networkx
from .evidence.graphs import Edge, Graph
from .evidence.nodes import Node
from .evidence.reductions import Reduction, Reductions
from .evidence.separations import Separation
from .evidence.signings import Signing, SigningStep
from .evidence.trees import Tree
from .matrices.lines import Line, LineSet, Names
from .matrices.matrix import Matrix
from .matrices.sources import MatrixLike
from .matrices.submatrices import Submatrix
from .matroids.named_matroids import named
from .models.constraints import Scaling
from .models.linear_models import Model
from .models.model_objects import scipy_model
from .models.modellers import (
    from_linopy,
    from_model,
    from_model_scaled,
    from_pulp,
    from_pyomo,
    from_scipy,
    reduced_parts,
)
from .questions.answers import Answer, Checked, Parts
from .questions.excluded import ExcludedMinor
from .questions.mappings import Automorphisms
from .questions.matroid_trees import Decomposition
from .questions.minor_values import Minor
from .questions.minors import excluded_minor
from .questions.properties import (
    has_no_cycle_fault,
    is_balanced,
    is_cographic,
    is_conetwork,
    is_graphic,
    is_network,
    is_regular,
    is_series_parallel,
    is_totally_unimodular,
)
from .questions.represented import Matroid
from .questions.tools import check, compose, generate, matrix_of, parts, sign
from .reporting.report import FamilyLine, ModelReport, model_report
from .running.program import find_program
from .version import __version__

__all__ = [
    "Answer",
    "Automorphisms",
    "BadCoefficients",
    "BadCommandLine",
    "BadEntry",
    "BadInput",
    "BadText",
    "CannotRead",
    "CannotWrite",
    "Chain",
    "ChainStep",
    "Checked",
    "CmrError",
    "CommandMissing",
    "Decomposition",
    "Edge",
    "ExcludedMinor",
    "Family",
    "FamilyLine",
    "Graph",
    "Line",
    "LibraryMissing",
    "LineSet",
    "Matrix",
    "MatrixLike",
    "Matroid",
    "Minor",
    "Model",
    "ModelReport",
    "Names",
    "Node",
    "OutOfMemory",
    "Parts",
    "ProgramFault",
    "ProgramMissing",
    "Reduction",
    "Reductions",
    "Refused",
    "Scaling",
    "Separation",
    "Signing",
    "SigningStep",
    "Submatrix",
    "TextPlace",
    "TimeLimitReached",
    "Tree",
    "Undecided",
    "UnprovedProgram",
    "Unreadable",
    "__version__",
    "check",
    "compose",
    "excluded_minor",
    "find_program",
    "from_linopy",
    "from_model",
    "from_model_scaled",
    "from_pulp",
    "from_pyomo",
    "from_scipy",
    "generate",
    "graph_of_edges",
    "graph_of_networkx",
    "has_no_cycle_fault",
    "is_balanced",
    "is_cographic",
    "is_conetwork",
    "is_graphic",
    "is_network",
    "is_regular",
    "is_series_parallel",
    "is_totally_unimodular",
    "matrix_of",
    "model_report",
    "named",
    "parts",
    "reduced_parts",
    "scipy_model",
    "sign",
]
