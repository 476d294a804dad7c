/* How a page of the viewer looks, and its script. */
#ifndef VIEW_STYLE_H
#define VIEW_STYLE_H

/* Colours of lines, boxes and rows for a light page are attributes of the drawing; here are those for a dark one. Paper is light. */
static const char PAGE_STYLE[] =
    ":root { color-scheme: light dark; --ink: #1f2d3a; --soft-ink: #52606d; --rule: #d5dce3; --page: #ffffff; }\n"
    "body { margin: 1rem 1.25rem; color: var(--ink); background: var(--page); font: 15px/1.45 system-ui, sans-serif; }\n"
    "h1 { margin: 0 0 .4rem; font-size: 1.25rem; overflow-wrap: anywhere; }\n"
    ".figures { display: flex; flex-wrap: wrap; gap: .2rem 1.4rem; margin: 0 0 .5rem; }\n"
    ".figures div { display: flex; gap: .4rem; }\n"
    ".figures dd { margin: 0; font-weight: 600; font-variant-numeric: tabular-nums; }\n"
    ".legend { display: flex; flex-wrap: wrap; gap: .2rem 1.4rem; margin: 0 0 .6rem; padding: 0; list-style: none; }\n"
    ".legend, .zoom, .figures dt, summary, th { color: var(--soft-ink); }\n"
    ".legend svg { width: 4.5rem; height: .9rem; margin-right: .4rem; vertical-align: -.1rem; }\n"
    ".zoom { margin-right: .5rem; }\n"
    "input + label { margin: 0 .7rem 0 .15rem; }\n"
    ".sheet { --zoom: 3; margin: .6rem 0 1rem; overflow: auto; border: 1px solid var(--rule); border-radius: 6px; }\n"
    ".chart { display: block; width: calc(var(--width) * var(--zoom) * 1mm); height: auto; margin: 0 auto;\n"
    "  font-family: 'DejaVu Sans Mono', Menlo, Consolas, monospace; }\n"
    "#fit:checked ~ .sheet .chart { width: min(100%, calc(var(--width) * 5mm)); }\n"
    ".line:hover .edge { stroke-width: .5; }\n"
    ".far { opacity: .12; }\n"
    "summary { cursor: pointer; }\n"
    "table { margin: .6rem 0; border-collapse: collapse; font-variant-numeric: tabular-nums; }\n"
    "caption, .caption { margin: 0; text-align: left; font-weight: 600; }\n"
    "th, td { padding: .1rem .8rem .1rem 0; text-align: right; }\n"
    "th { font-weight: 400; }\n"
    ".word { text-align: left; }\n"
    "td.word { font-family: monospace; }\n"
    ".list { margin: .2rem 0; padding-left: 1.2rem; overflow-wrap: anywhere; }\n"
    "@media screen and (prefers-color-scheme: dark) {\n"
    "  :root { --ink: #e4e9ee; --soft-ink: #a3b0bd; --rule: #39434d; --page: #14191e; }\n"
    "  .edge.must, .pass.must { stroke: #93a5b6; } marker .must { fill: #93a5b6; }\n"
    "  .edge.soft, .pass.soft { stroke: #63a9ee; } marker .soft { fill: #63a9ee; }\n"
    "  .edge.turned, .pass.turned { stroke: #f0905f; } marker .turned, .mark { fill: #f0905f; } .mark { stroke: var(--page); }\n"
    "  .rows { fill: #7d8a97; } .rows path { stroke: #262e35; }\n"
    "  .steps { fill: var(--ink); }\n"
    "  .check rect { fill: #1f2a35; stroke: #7f9cba; }\n"
    "  .adjust rect { fill: #1a3024; stroke: #62b384; }\n"
    "  .wait rect { fill: #362b17; stroke: #d2a04c; }\n"
    "}\n"
    "@media print {\n"
    "  body { margin: 0; font-size: 10pt; }\n"
    "  .zoom, input, input + label, details:not([open]), .hint { display: none; }\n"
    "  .sheet { overflow: visible; border: 0; }\n"
    "  .chart { max-width: 100%; margin: 0; }\n"
    "}\n";

/* Lines that do not touch the step under the pointer step back. */
static const char PAGE_SCRIPT[] =
    "(function () {\n"
    "  var chart = document.querySelector('.chart'), lines = chart.querySelectorAll('.line, .pass');\n"
    "  chart.addEventListener('pointerover', function (event) {\n"
    "    var step = event.target.closest('.step');\n"
    "    lines.forEach(function (line) {\n"
    "      var near = !step || line.dataset.from === step.dataset.step || line.dataset.to === step.dataset.step;\n"
    "      line.classList.toggle('far', !near);\n"
    "    });\n"
    "  });\n"
    "  chart.addEventListener('pointerleave', function () {\n"
    "    lines.forEach(function (line) { line.classList.remove('far'); });\n"
    "  });\n"
    "})();\n";

#endif
