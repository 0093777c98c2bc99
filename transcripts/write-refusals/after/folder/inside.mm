inside
