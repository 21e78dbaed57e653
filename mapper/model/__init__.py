"""The variogram: the semivariogram of the wells by the proved call, and the model that is fitted to it."""
