"""The style sheet of the company's page, which looks as a site's page does (crates/mrp_page). Nothing is fetched or run."""

STYLE = """*{box-sizing:border-box}
body{font:14px/1.4 system-ui,sans-serif;margin:0;padding:0 1.2rem 3rem;color:#1d2733;background:#fff;font-variant-numeric:tabular-nums}
h1{font-size:1.5rem;margin:.6rem 0 0}
h2{font-size:1.15rem;margin:0 0 .4rem}
h1,h2,a,li,tbody th{overflow-wrap:anywhere}
p{margin:.2rem 0}
ul{margin:.2rem 0;padding:0;list-style:none}
a{color:#1f5fa8}
header p,small,.note,.rest>summary,thead th{color:#566472}
header b{color:#1d2733}
small{font-size:.85em}
section{border-top:1px solid #dde3ea;padding:.9rem 0}
summary{cursor:pointer}
.z{color:#66727f}
.bad{color:#b32626;font-weight:600}
.sum{display:flex;flex-wrap:wrap;gap:.5rem;margin:.5rem 0 1rem}
.sum a{border-left:4px solid #b9c3cd;padding:.2rem .7rem .2rem .5rem;background:#f5f7f9;color:inherit;text-decoration:none}
.sum b{font-size:1.35rem;margin-right:.3rem}
.sum .none b{color:#66727f;font-weight:400}
.said li{border-left:4px solid #b9c3cd;padding:.08rem 0 .08rem .6rem;margin:.3rem 0}
.sum .late,.said .late{border-color:#c53030}
.sum .release{border-color:#2f855a}
.sum .in,.said .in{border-color:#b7791f}
.scroll{overflow-x:auto}
table{border-collapse:collapse}
th{font-weight:400;text-align:left}
.list{margin:.2rem 0 .6rem}
.list th,.list td{padding:.08rem 1rem .08rem 0;text-align:right;vertical-align:top;white-space:nowrap}
.list thead th{border-bottom:1px solid #dde3ea}
.list .t,.list th[scope=row]{text-align:left}
.list tbody tr:hover{background:#f0f4f8}
.list th:first-child{position:sticky;left:0;background:#fff;max-width:14rem}
.list tbody th:first-child{white-space:normal}
@media (max-width:40rem){body{padding:0 .6rem 2rem;font-size:13px}.sum a{padding:.1rem .5rem;flex:1 1 9rem}.list tbody th:first-child{min-width:6.5rem;max-width:8rem;white-space:normal}.list th,.list td{padding-right:.7rem}}
@media print{@page{size:landscape;margin:1cm}body{padding:0;font-size:10px}a{color:inherit;text-decoration:none}.scroll{overflow:visible}tr,li{break-inside:avoid}.sum a{print-color-adjust:exact}}
"""
