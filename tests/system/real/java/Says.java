// Speaks by PgJDBC: prepared statements that become the server's, batches, savepoints, rows in portions, COPY.
import java.io.StringReader;
import java.sql.Connection;
import java.sql.DriverManager;
import java.sql.PreparedStatement;
import java.sql.ResultSet;
import java.sql.SQLException;
import java.sql.Savepoint;
import java.sql.Statement;
import org.postgresql.PGConnection;

public class Says {
    public static void main(String[] arguments) throws Exception {
        String url = "jdbc:postgresql://" + System.getenv("PGHOST") + ":" + System.getenv("PGPORT") + "/postgres?sslmode=disable";
        try (Connection connection = DriverManager.getConnection(url, "postgres", "")) {
            Statement statement = connection.createStatement();
            statement.execute("CREATE TEMPORARY TABLE said (id int, word text)");
            PreparedStatement insert = connection.prepareStatement("INSERT INTO said VALUES (?, ?)");
            for (int i = 0; i < 20; i++) {
                insert.setInt(1, i);
                insert.setString(2, "word " + i);
                insert.addBatch();
            }
            System.out.println(insert.executeBatch().length);
            PreparedStatement select = connection.prepareStatement("SELECT word FROM said WHERE id = ?");
            for (int i = 0; i < 10; i++) {
                select.setInt(1, i);
                ResultSet rows = select.executeQuery();
                rows.next();
                System.out.print(rows.getString(1) + " ");
            }
            System.out.println(((PGConnection) connection).getCopyAPI().copyIn("COPY said FROM STDIN", new StringReader("30\tx\n31\ty\n")));
            connection.setAutoCommit(false);
            Savepoint savepoint = connection.setSavepoint();
            try {
                statement.execute("SELECT 1 / 0");
            } catch (SQLException error) {
                System.out.println(error.getSQLState());
            }
            connection.rollback(savepoint);
            statement.setFetchSize(5);
            int sum = 0;
            try (ResultSet rows = statement.executeQuery("SELECT id FROM said ORDER BY id")) {
                while (rows.next())
                    sum += rows.getInt(1);
            }
            System.out.println(sum);
            connection.commit();
        }
    }
}
