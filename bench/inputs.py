"""Writes the inputs of the benchmark: python3 inputs.py FOLDER KIND BYTES, a text of that kind with about that many bytes.

Each text is made of numbered pieces and depends on nothing but its kind and size.
"""

import sys

WORDS = "alpha bravo charlie delta echo foxtrot golf hotel india juliett kilo lima mike november oscar papa".split()


def word(i):
    return WORDS[i * 7 % len(WORDS)]


def words(i, count):
    return " ".join(word(i + k * k) for k in range(count))


def mapping(i):
    return f"- name: {word(i)} {i}\n  count: {i * 37 % 1000}\n  active: true\n  tags:\n    - {word(i + 1)}\n    - {word(i + 2)}\n  place: {{x: {i % 17}, y: {i % 19}}}\n"


def flow(i):
    depth = 40
    return "- " + "".join(f"[{word(i + k)}, " for k in range(depth)) + "end" + "]" * depth + "\n"


def scalars(i):
    plain = "\n    ".join(words(i + k, 12) for k in range(20))
    quoted = "\n    ".join(words(i + k, 12) for k in range(1, 21))
    single = words(i, 60)
    return f"- {plain}\n- \"{quoted} \\t end\"\n- '{single}'\n"


def literals(i):
    lines = "".join(f"    {words(i + k, 8)}\n" if k % 7 else "\n" for k in range(30))
    return f"- |\n    first\n{lines}- >-\n    first\n{lines}"


def anchors(i):
    return f"- &node{i} {{key: &value{i} {word(i)}, again: *value{i}}}\n- *node{i}\n- !local &tagged{i} {word(i + 1)}\n- !!str &text{i} {i}\n"


def json(i):
    return f'  {{"id": {i}, "name": "{words(i, 3)}", "price": {i % 977}.{i % 10}, "tags": ["{word(i)}", "{word(i + 1)}"], "nested": {{"on": true, "off": null}}}}'


# Words of Greek, Cyrillic and Chinese, and of Latin script with accents.
WIDE = "άλφα βήτα γάμμα δέλτα ποταμός θάλασσα река горы облако письмо дорога звезда 山川 河流 天空 文字 道路 星辰".split()


def wide_words(i, count):
    return " ".join(WIDE[(i * 7 + k * k) % len(WIDE)] for k in range(count))


def paragraphs(i, of):
    plain = "\n  ".join(of(i + k, 11) for k in range(12))
    quoted = "\n  ".join(of(i + k, 11) for k in range(5, 17))
    return f"- {plain}\n- \"{quoted}\"\n- title: {of(i, 4)}\n  text: '{of(i + 3, 40)}'\n"


def prose(i):
    return paragraphs(i, words)


def wide(i):
    return paragraphs(i, wide_words)


def logs(i):
    lines = "".join(
        f"    2024-03-{k % 28 + 1:02} 12:{k % 60:02}:{i % 60:02}.{i * k % 1000:03} INFO [worker-{k % 8}] {word(k)}/{word(i)}: took {i * 31 % 900} ms, {words(k, 6)}\n"
        for k in range(40)
    )
    return f"- job: {word(i)}-{i}\n  status: ok\n  log: |\n{lines}"


def workflow(i):
    steps = "".join(
        f"      - name: {words(i + k, 3)}\n        if: github.ref == 'refs/heads/{word(k)}' && success()\n"
        f"        uses: actions/{word(i + k)}@v{k % 5 + 1}\n        with:\n          path: ~/.cache/{word(k)}\n          key: \"${{{{ runner.os }}}}-{word(i)}-{k}\"\n"
        f"      - run: |\n          set -eu\n          make {word(k)} VERBOSE=1  # {words(i, 4)}\n          ./scripts/{word(i)}.sh --jobs {k} \"$HOME/{word(i + 1)}\"\n"
        for k in range(6)
    )
    return (
        f"name: {word(i)}\non:\n  push:\n    branches: [main, 'release/**']\n  pull_request:\njobs:\n  {word(i)}-{i}:\n    # {words(i, 6)}\n"
        f"    runs-on: ${{{{ matrix.os }}}}\n    strategy:\n      matrix:\n        os: [ubuntu-22.04, macos-13]\n        python: ['3.10', '3.11', '3.12']\n    steps:\n{steps}"
    )


def manifest(i):
    ports = "".join(f"        - containerPort: {8000 + k}\n          name: {word(k)}\n          protocol: TCP\n" for k in range(3))
    names = "".join(f"        - name: {word(i + k).upper()}_URL\n          value: \"http://{word(k)}.{word(i)}.svc:{9000 + k}/v1\"\n" for k in range(6))
    return (
        f"apiVersion: apps/v1\nkind: Deployment\nmetadata:\n  name: {word(i)}-{i}\n  namespace: {word(i + 1)}\n  labels: {{app: {word(i)}, tier: backend}}\n"
        f"  annotations:\n    example.com/checksum: {i * 2654435761 % 2**32:08x}\nspec:\n  replicas: {i % 5 + 1}\n  selector:\n    matchLabels:\n      app: {word(i)}\n"
        f"  template:\n    metadata:\n      labels:\n        app: {word(i)}\n    spec:\n      containers:\n      - name: main\n        image: registry.example.com/{word(i)}/{word(i + 2)}:{i % 9}.{i % 7}.{i}\n"
        f"        args: [\"--listen\", \"0.0.0.0:{8000 + i % 100}\", \"--verbose\"]\n        ports:\n{ports}        env:\n{names}"
        f"        resources:\n          limits: {{cpu: 500m, memory: 256Mi}}\n          requests:\n            cpu: 100m\n            memory: 64Mi\n"
        f"        livenessProbe:\n          httpGet:\n            path: /healthz\n            port: 8080\n          initialDelaySeconds: {i % 30}\n"
    )


def openapi(i):
    answers = "".join(
        f"        '{code}':\n          description: {words(i + code, 7)}\n          content:\n            application/json:\n              schema:\n                $ref: '#/components/schemas/{word(code).title()}'\n"
        for code in (200, 400, 404)
    )
    return (
        f"  /{word(i)}/{{id{i}}}/{word(i + 1)}:\n    get:\n      operationId: get{word(i).title()}{i}\n      summary: {words(i, 6)}\n      description: >-\n        {words(i, 14)}\n        {words(i + 1, 14)}\n"
        f"      tags:\n        - {word(i)}\n      parameters:\n        - in: path\n          name: id{i}\n          required: true\n          schema: {{type: integer, format: int64, minimum: 1}}\n"
        f"        - in: query\n          name: {word(i + 2)}\n          description: \"{words(i, 9)}\"\n          schema:\n            type: string\n            enum: [{word(i)}, {word(i + 1)}, {word(i + 2)}]\n      responses:\n{answers}"
    )


def deep_json(i):
    def node(depth):
        inner = f"{node(depth - 1)}, {node(depth - 1)}" if depth else f"{i}, null, true, -{i % 100}.5e3"
        return f'{{"{word(i + depth)}": [{inner}], "{word(depth)}": "{words(i, 3)}"}}'

    return f"  {node(4)}"


PIECES = {"mapping": mapping, "flow": flow, "scalars": scalars, "literals": literals, "anchors": anchors, "json": json}
PIECES |= {"prose": prose, "wide": wide, "logs": logs, "workflow": workflow, "manifests": manifest, "openapi": openapi, "deepjson": deep_json}
# What is before the first piece, between two, and after the last one, where that isn't nothing.
AROUND = {"json": ("[\n", ",\n", "\n]\n"), "deepjson": ("[\n", ",\n", "\n]\n"), "workflow": ("", "---\n", ""), "manifests": ("", "---\n", "")}
AROUND["openapi"] = ("openapi: 3.0.3\ninfo: {title: Example, version: 1.0.0}\npaths:\n", "", "")


def text(kind, size):
    """A text of that kind with about so many bytes."""
    pieces, total, i = [], 0, 0
    before, between, after = AROUND.get(kind, ("", "", ""))
    while total < size:
        it = PIECES[kind](i)
        pieces.append(it)
        total += len(it.encode()) + len(between)
        i += 1
    return before + between.join(pieces) + after


def main():
    folder, kind, size = sys.argv[1:]
    with open(f"{folder}/{kind}-{size}.yaml", "w", encoding="utf-8") as out:
        out.write(text(kind, int(size)))


if __name__ == "__main__":
    main()
