-- What a database holds once load.sql has loaded a file: how many records each table has, then every corner with what it refers to, every parameter
-- and every loop part. Held against the second reader by expected.py.
SELECT 'v', count(*) FROM v;
SELECT 'vt', count(*) FROM vt;
SELECT 'vn', count(*) FROM vn;
SELECT 'vp', count(*) FROM vp;
SELECT 'corners', count(*) FROM corners;
SELECT 'elements', count(*) FROM elements;
SELECT 'bodies', count(*) FROM bodies;
SELECT 'ranges', count(*) FROM ranges;
SELECT 'parameters', count(*) FROM parameters;
SELECT 'loops', count(*) FROM loops;
SELECT 'spans', count(*) FROM spans;
SELECT e.number, e.kind, e.smoothing, e.group_names, e.material, c.k,
    printf('%.6f %.6f %.6f %.6f', v.x, v.y, v.z, v.w),
    CASE WHEN c.vt IS NOT NULL THEN printf('%.6f %.6f %.6f', vt.u, vt.v, vt.w) END,
    CASE WHEN c.vn IS NOT NULL THEN printf('%.6f %.6f %.6f', vn.i, vn.j, vn.k) END
FROM corners c JOIN elements e ON e.number = c.element JOIN v ON v.number = c.v
    LEFT JOIN vt ON vt.number = c.vt LEFT JOIN vn ON vn.number = c.vn
ORDER BY c.number;
SELECT e.number, e.kind, c.k, vp.given, printf('%.6f %.6f %.6f', vp.u, vp.v, vp.w)
FROM corners c JOIN elements e ON e.number = c.element JOIN vp ON vp.number = c.vp
ORDER BY c.number;
SELECT e.number, b.type, b.rational, b.u_degree, b.v_degree, printf('%.6f %.6f %.6f %.6f', r.u_start, r.u_end, r.v_start, r.v_end)
FROM elements e JOIN bodies b ON b.number = e.body JOIN ranges r ON r.number = b.number
ORDER BY e.number;
SELECT e.number, p.direction, printf('%.6f', p.value)
FROM parameters p JOIN elements e ON e.body = p.body
ORDER BY p.number;
SELECT e.number, l.begins, c.number, c.kind, printf('%.6f %.6f', s.span_start, s.span_end)
FROM loops l JOIN spans s ON s.number = l.number JOIN elements e ON e.body = l.body JOIN elements c ON c.number = l.curve
ORDER BY l.number;
