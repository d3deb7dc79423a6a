"""The result for a budget, of a section or of a period."""
from __future__ import annotations

import tempfile
from pathlib import Path

from fptools.budget.judge import Judge
from fptools.budget.files import Budget, Result
from fptools.budget.names import Names


def judged(judge: Judge, budget: Budget) -> Result:
    """The result for a budget: of the loops that it means, the one that is furthest from keeping
    it. Of a section, loops that have no table in the setup are bounded by the executable."""
    if budget.period is not None:
        from fptools.period.periods import results_of

        return max(results_of(judge, budget), key=lambda it: (it.verdict, it.bound or 0))
    if judge.program.path is None:
        return judge.judge(budget)
    with tempfile.TemporaryDirectory() as folder:
        names = names_of(judge, Path(folder))
        is_made = names.lacks_table(budget) or not judge.setup.image.exists()
        return names.section(budget) if is_made else judge.judge(budget)


def names_of(judge: Judge, folder: Path) -> Names:
    """Asks as a judge does, with tables for the loops for which its setup has none."""
    return Names(
        judge.flexpret,
        judge.setup,
        judge.image,
        judge.program,
        judge.sources,
        folder,
        judge.has_paths,
        keeps_tables=True,
    )
