"""Instructions counted by valgrind: some jobs stay near their recorded counts, which the picture shows."""

import bench as bench_py
import pytest
from conftest import ROOT, need, run

# How much a count may differ from its record, because C libraries differ.
WITHIN = 0.02


@pytest.mark.parametrize("job", ["small", "typical", "long", "many", "rustc", "usage", "order-typical", "loop-typical"])
def test_instructions_near_record(job, bench, tmp_path):
    need("valgrind")
    work, line, few, more = bench_py.JOBS[job]
    (tmp_path / "rows").write_text(bench_py.rows(line), encoding="utf-8")
    recorded = int(bench_py.recorded()["Instructions per iteration", job]["this library"])
    counted = bench_py.of_an_iteration("instructions", few, more, [bench, work, tmp_path / "rows"])
    assert abs(counted - recorded) <= WITHIN * recorded, f"{counted}: run bench/bench.py again"


def test_bench_commands():
    """The commands for a single program or line."""
    need("valgrind")
    stored = (ROOT / "crates/getopts_bench/data/none.rows").read_text(encoding="utf-8")
    assert run(ROOT / "bench/bench.py", "--rows", "none")[0] == bench_py.rows("none") == stored
    assert int(run(ROOT / "bench/bench.py", "--count", "peak", "0", "1", "/bin/echo")[0]) >= 0
