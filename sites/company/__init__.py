"""Plans the sites of a company, each after all that buy from it, as a workflow of Snakemake.

  sites/night COMPANY [--profile P] [--jobs N] [--batch N] [--program FILE] [--memory MB] [--minutes N]
  sites/night COMPANY --check

COMPANY is a folder with links.csv and, in sites/SITE, the nine tables of each site. Planned order releases of a linked item
become forecast of its supplier, by their dates, less transit. Only what has changed since the last night, and what that feeds, is
planned again; what a killed night has left is taken up.

  COMPANY/out/index.html  a line for each site, with a link to its page
  COMPANY/out/SITE/plan/  its last good plan: day, page.html, releases.csv, drp.csv, warnings.txt, tables/
  COMPANY/out/SITE/       state.json; faults.txt of a site that is refused

  --check         looks at the links alone, and says how many sites each tier has; nothing is planned
  --profile P     how jobs are run: local (by default), slurm, or a folder with a profile of Snakemake
  --jobs N        at most N jobs at a time; by default as many as there are processors here
  --batch N       N sites of one tier in a job; by default so many that each job slot has two jobs of a tier, at most 50
  --program FILE  mrp; by default that in the path, or bin/mrp
  --memory MB     what mrp may take of the memory for one site; by default 1000
  --minutes N     what a job may take on a cluster; by default 60

docs/SITES.md has the rules. The status is 0 where all sites are planned; 1 where one is not, or where the links are refused and
nothing is planned; 2 with wrong words, or where snakemake or mrp is not there.
"""
