mod way;
