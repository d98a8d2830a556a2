"""Tries nights on made companies, and looks whether each is as it must be.

  sites/trial [TRIAL ...] [--sites N] [--items N] [--jobs N] [--batch N] [--profile P] [--program FILE] [--folder DIR] [--keep]
  sites/trial --short

The trials, in this order, of which each begins with what the one before has left; without a name all are made:

  nothing  all is planned from nothing
  again    nothing has changed
  stock    one stock of one site has changed
  refused  a site is refused; then it is mended
  job      from nothing, and a job is killed; then the same command again
  night    from nothing, and snakemake and sites/night are killed; then the same command again
  memory   one site needs more memory than it may take; then it may

After each the plans must have the bytes of a company whose sites were planned one after the other in one process, without
Snakemake; and no other sites must have been planned anew than those that what has changed feeds. Companies are made by
sites/make_company: links are four deep.

  --sites N       how many sites, by default 20
  --items N       how many items each has, by default 500
  --jobs N, --batch N, --profile P, --program FILE   as sites/night has them
  --folder DIR    where the companies are laid, by default a temporary folder; under Slurm all nodes have to see it
  --keep          leaves them there
  --short         what the gate tries: the example of three sites, and of 20 sites the trials nothing, again, stock, refused, night

A line tells the seconds and the processor seconds of each, on Slurm without those of its jobs. The last line is `N passed, M
failed`; the status is 1 where one failed. Where snakemake is not there, that is said, and nothing is tried.
"""
